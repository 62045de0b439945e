"""`python3 -m tcc.full` says all about an answer in one line of JSON: see `tcc.judging.full`."""
import sys

from tcc.judging.full import main

if __name__ == "__main__":
    sys.exit(main())
