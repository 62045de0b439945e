#!/usr/bin/env python3
"""Starts `tcc.edn` of the package in python/, which turns values of EDN into lines of JSON."""
import pathlib
import sys

sys.path.insert(0, str(pathlib.Path(__file__).resolve().parent.parent / "python"))
from tcc.edn import main  # noqa: E402

if __name__ == "__main__":
    sys.exit(main())
