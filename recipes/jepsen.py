#!/usr/bin/env python3
"""Starts `tcc.jepsen` of the package in python/, which turns a history of Jepsen or Elle into records."""
import pathlib
import sys

sys.path.insert(0, str(pathlib.Path(__file__).resolve().parent.parent / "python"))
from tcc.jepsen import main  # noqa: E402

if __name__ == "__main__":
    sys.exit(main())
