"""How each script of this folder answers `--help`, and arguments that are too few."""
import signal
import sys


def usage(text, least=0):
    """Prints the usage and ends: with status 0 for `--help`, with 1 where there are fewer than `least` arguments."""
    words = sys.argv[1:]
    if words[:1] == ["--help"]:
        signal.signal(signal.SIGPIPE, signal.SIG_DFL)  # a reader may stop early, as `head` does
        print(text.strip())
        sys.exit(0)
    if len(words) < least:
        print(text.strip(), file=sys.stderr)
        sys.exit(1)


def standard_input(text):
    """What comes on standard input. On a terminal, or where nothing comes, prints the usage and ends with status 1."""
    given = "" if sys.stdin.isatty() else sys.stdin.read()
    if not given:
        print(text.strip(), file=sys.stderr)
        sys.exit(1)
    return given
