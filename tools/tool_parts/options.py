"""The arguments of a tool: its text in front is its help, and a message says which argument was wrong."""
import argparse
import math
import os
import sys


def parser(text, **more):
    """A parser whose description is a tool's text. What stands behind `usage:` there isn't said twice."""
    lines = [line for line in text.strip().split("\n") if not line.startswith("usage: ")]
    found = argparse.ArgumentParser(
        description="\n".join(lines), allow_abbrev=False, formatter_class=argparse.RawDescriptionHelpFormatter,
        **{"prog": tool()} | more)
    found.add_argument("--version", action="version", version=f"savi_switch {version()}", help="show the version and exit")
    return found


def tool():
    """The name by which a tool was started: where it is installed, that begins with `savi-`."""
    return os.path.basename(sys.argv[0])


def stop(words, status=1):
    """Ends a tool, and says why."""
    print(f"{tool()}: {words}", file=sys.stderr)
    sys.exit(status)


def version():
    """The version, which stands at the top of the sources, and of what is installed."""
    try:
        with open(f"{os.path.dirname(os.path.realpath(__file__))}/../../VERSION", encoding="ascii") as file:
            return file.read().strip()
    except OSError:
        return "unknown"


def whole(least, most=None):
    """The type of an argument that is a whole number in a range."""
    range_text = f"from {least}" if most is None else f"from {least} to {most}"

    def read(word):
        if not word.isascii() or not word.isdecimal() or int(word) < least or most is not None and int(word) > most:
            raise argparse.ArgumentTypeError(f"{word!r} isn't a whole number {range_text}")
        return int(word)

    return read


def seconds(word):
    """The type of an argument that is a time in seconds."""
    try:
        found = float(word)
    except ValueError:
        found = 0
    if not 0 < found < math.inf:
        raise argparse.ArgumentTypeError(f"{word!r} isn't a number of seconds above 0")
    return found


def program(word):
    """The type of an argument that is a program."""
    path = os.path.realpath(word)
    if not os.path.isfile(path) or not os.access(path, os.X_OK):
        raise argparse.ArgumentTypeError(f"{word!r} isn't a program that is there")
    return path


def before(words):
    """Takes a second program, which is measured beside the first."""
    words.add_argument("--before", metavar="PROGRAM", type=program, help="a second program, which is measured beside it")


def of_measurement(text, rounds, has_before=False):
    """The program and the rounds that a measurement is given, and the program before it, where it takes one."""
    words = parser(text)
    words.add_argument("program", metavar="PROGRAM", type=program, help="the program that is measured")
    words.add_argument("rounds", metavar="ROUNDS", nargs="?", type=whole(1), default=rounds,
                       help="how many rounds, of which the least time is told: %(default)s if not given")
    if has_before:
        before(words)
    given = words.parse_args()
    return (given.program, given.rounds, given.before) if has_before else (given.program, given.rounds)


def folder(word):
    """The type of an argument that is a folder."""
    if not os.path.isdir(word):
        raise argparse.ArgumentTypeError(f"{word!r} isn't a folder that is there")
    return word
