#!/usr/bin/env python3
"""Starts `tcc.report` of the package in python/, which makes one page of a history that shows what is wrong with it."""
import pathlib
import sys

sys.path.insert(0, str(pathlib.Path(__file__).resolve().parent.parent / "python"))
from tcc.report import main  # noqa: E402

if __name__ == "__main__":
    sys.exit(main())
