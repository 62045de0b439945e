"""The command lines of tests."""
import argparse
import pathlib
import shlex
from typing import Callable, Iterable, List

from counted import Outcome, status_of

TOP = pathlib.Path(__file__).resolve().parent.parent


def ask_for_tcc(about: str) -> argparse.ArgumentParser:
    """A command line that has the program, as the words that call it."""
    ask = argparse.ArgumentParser(description=about)
    ask.add_argument("--tcc", type=shlex.split, default=[str(TOP / "crates/tcc/out/tcc")], help="the program, by default the built one")
    return ask


def status_on_tcc(about: str, outcomes: Callable[[List[str]], Iterable[Outcome]]) -> int:
    """The exit status of a test that asks for nothing but the program."""
    return status_of(outcomes(ask_for_tcc(about).parse_args().tcc))


def status_of_written(about: str, write: Callable[[], None], outcomes: Callable[[], Iterable[Outcome]]) -> int:
    """The exit status of a test of what a script writes: with `--write`, after its writing."""
    ask = argparse.ArgumentParser(description=about)
    ask.add_argument("--write", action="store_true", help="writes it anew")
    if ask.parse_args().write:
        write()
    return status_of(outcomes())
