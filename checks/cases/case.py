"""One run of a program: its words, standard input, and what has to come out."""

import dataclasses
from typing import Callable


def as_bytes(text):
    return text.encode() if isinstance(text, str) else text


@dataclasses.dataclass(frozen=True)
class Case:
    """`words` stand behind the program's name, and are cut at spaces if they are one text. Texts may be given as str or bytes. `out` may be
    a function instead: it gets standard output, and gives what is wrong with it, or None. So may `status`: it gets standard output, and
    gives the status that goes with it. A case that is `slow` takes minutes before the proof, or is one of thousands, and is left to the
    built program."""

    name: str
    words: list[str]
    given: bytes = b""
    out: bytes | Callable[[bytes], str | None] = b""
    err: bytes = b""
    status: int | Callable[[bytes], int] = 0
    slow: bool = False

    def __post_init__(self):
        put = lambda field, value: object.__setattr__(self, field, value)
        put("words", self.words.split() if isinstance(self.words, str) else list(self.words))
        put("given", as_bytes(self.given))
        put("err", as_bytes(self.err))
        if not callable(self.out):
            put("out", as_bytes(self.out))
