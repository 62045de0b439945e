"""`python3 -m tcc.report` makes one page of a history that shows what is wrong with it: see `tcc.show.report`."""
import sys

from tcc.show.report import main

if __name__ == "__main__":
    sys.exit(main())
