"""The command line of a script, and numbers among its words."""
import argparse
import re
from typing import Callable, NoReturn, Optional

NUMBER = re.compile("[1-9][0-9]{0,8}")
WRONG_COMMAND_LINE = 64


class Arguments(argparse.ArgumentParser):
    """A wrong command line ends with 64, as that of `tcc` does: 2 says that reads can't be traced."""

    def error(self, message: str) -> NoReturn:
        self.exit(WRONG_COMMAND_LINE, "%s%s: %s\n" % (self.format_usage(), self.prog, message))


def command_line(about: Optional[str], example: str) -> argparse.ArgumentParser:
    return Arguments(description=about, epilog=example, formatter_class=argparse.RawDescriptionHelpFormatter)


def add_files(ask: argparse.ArgumentParser, **told: str) -> None:
    """Options that name a file each, with what is said of it."""
    for name, text in told.items():
        ask.add_argument("--" + name, metavar="FILE", help=text)


def add_tcc(ask: argparse.ArgumentParser) -> None:
    """The option that names the program."""
    ask.add_argument("--tcc", metavar="PATH", help="the program, by default what the variable TCC names, or else the one on the path, or "
                     "beside this script's folder, as in the archive")


def count(word: str) -> int:
    """A number from 1."""
    if not NUMBER.fullmatch(word):
        raise argparse.ArgumentTypeError("%s is no number from 1" % word)
    return int(word)


def count_within(least: int, most: int) -> Callable[[str], int]:
    """A number within these."""
    def number(word: str) -> int:
        if not word.isdecimal() or not least <= int(word) <= most:
            raise argparse.ArgumentTypeError("%s is no number from %d to %d" % (word, least, most))
        return int(word)
    return number
