#!/usr/bin/env python3
"""Starts `tcc.full` of the package in python/, which says all about an answer in one line of JSON."""
import pathlib
import sys

sys.path.insert(0, str(pathlib.Path(__file__).resolve().parent.parent / "python"))
from tcc.full import main  # noqa: E402

if __name__ == "__main__":
    sys.exit(main())
