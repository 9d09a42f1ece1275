"""labrun in this process, by ctypes:  python3 labrun.py LIBLABRUN.so SCRIPT"""
import ctypes
import sys

NO_ROOM = 6


class Told(ctypes.Structure):
    """`struct lab_told` of labrun.h."""

    _fields_ = [("written", ctypes.c_size_t), ("line", ctypes.c_size_t), ("cause", ctypes.c_uint32)]


class Refused(Exception):
    """A script or a step is refused: its line, and 1 to 13 for S1 to S13, or 0 for a step that isn't legal."""

    def __init__(self, line, cause):
        super().__init__(f"line {line}: " + (f"S{cause}" if cause else "step is not legal"))
        self.line, self.cause = line, cause


class Labrun:
    """The program's runs on one thread. Each gives its status, 0 or 3, and what the program would print; threads may call at once."""

    def __init__(self, path):
        library = ctypes.CDLL(path)
        for name in ("lab_rounds", "lab_replay", "lab_check", "lab_upgrade"):
            limit = [ctypes.c_uint32] if name == "lab_rounds" else []
            call = getattr(library, name)
            call.argtypes = [ctypes.c_char_p, ctypes.c_size_t, *limit, ctypes.c_void_p, ctypes.c_size_t, ctypes.POINTER(Told)]
            call.restype = ctypes.c_uint32
            setattr(self, "_" + name, call)

    def _told(self, call, script, *limit):
        room, told = 16384 + len(script), Told()
        while True:
            report = ctypes.create_string_buffer(room)
            status = call(script, len(script), *limit, report, room, ctypes.byref(told))
            if status == 1:
                raise Refused(told.line, told.cause)
            if status == 4:
                raise ValueError("script longer than 16777216 bytes")
            if status == 5:
                raise MemoryError
            if status != NO_ROOM:
                return status, ctypes.string_at(report, told.written)
            room = told.written

    def rounds(self, script, limit=10000):
        if not 0 <= limit <= 1000000000:
            raise ValueError("limit is 0 to 1000000000")
        return self._told(self._lab_rounds, script, limit)

    def replay(self, script):
        return self._told(self._lab_replay, script)

    def check(self, script):
        return self._told(self._lab_check, script)

    def upgrade(self, script):
        return self._told(self._lab_upgrade, script)


if __name__ == "__main__":
    with open(sys.argv[2], "rb") as file:
        status, report = Labrun(sys.argv[1]).rounds(file.read())
    sys.stdout.buffer.write(report)
    sys.exit(status)
