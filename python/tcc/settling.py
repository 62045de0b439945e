"""`python3 -m tcc.settling` ends what a recording left open: see `tcc.record.settling`."""
import sys

from tcc.record.settling import main

if __name__ == "__main__":
    sys.exit(main())
