#!/usr/bin/env python3
"""Starts `tcc.places` of the package in python/, which tells where the transactions of a slice are in the whole history."""
import pathlib
import sys

sys.path.insert(0, str(pathlib.Path(__file__).resolve().parent.parent / "python"))
from tcc.places import main  # noqa: E402

if __name__ == "__main__":
    sys.exit(main())
