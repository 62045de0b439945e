"""`python3 -m tcc.picture` draws an answer, or lists its rows: see `tcc.show.picture`."""
import sys

from tcc.show.picture import main

if __name__ == "__main__":
    sys.exit(main())
