#!/usr/bin/env python3
"""Starts `tcc.picture` of the package in python/, which draws an answer, or lists its rows."""
import pathlib
import sys

sys.path.insert(0, str(pathlib.Path(__file__).resolve().parent.parent / "python"))
from tcc.picture import main  # noqa: E402

if __name__ == "__main__":
    sys.exit(main())
