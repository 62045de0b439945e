"""Judges what the clients of a test recorded, with a report in the form of JUnit.

    ROUNDS=rounds pytest --junit-xml report.xml test_causal.py

Each file `*.csv` of the folder that ROUNDS names, by default `rounds`, is a whole history: its test passes where the store kept its
promise, and fails where it broke it and where nothing was judged. A folder without rounds fails too. Needs the package in python/,
which has the fixture `assert_causal`, and the program, which --tcc or the variable TCC names.
"""
import os
import pathlib

import pytest

FOLDER = pathlib.Path(os.environ.get("ROUNDS", "rounds"))
ROUNDS = sorted(FOLDER.glob("*.csv"))


def test_has_rounds() -> None:
    assert ROUNDS, "no records in %s" % FOLDER


@pytest.mark.parametrize("records", ROUNDS, ids=[path.stem for path in ROUNDS])
def test_round(records, assert_causal) -> None:
    assert_causal(records, large=True)
