#!/usr/bin/env python3
"""Starts `tcc.all` of the package in python/, which lists the anomalies of a history, each with its usual name."""
import pathlib
import sys

sys.path.insert(0, str(pathlib.Path(__file__).resolve().parent.parent / "python"))
from tcc.all import main  # noqa: E402

if __name__ == "__main__":
    sys.exit(main())
