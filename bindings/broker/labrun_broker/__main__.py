"""labrun-broker, also as python3 -m labrun_broker."""

import sys


def main() -> int:
    """Ctrl-C ends it at any time, also while it is being read."""
    try:
        from .streams import standing

        with standing():
            from .command import main as command

            return command()
    except KeyboardInterrupt:
        return 130


if __name__ == "__main__":
    sys.exit(main())
