"""`python3 -m tcc.looking` answers for records that are still being written: see `tcc.watch.looking`."""
import sys

from tcc.watch.looking import main

if __name__ == "__main__":
    sys.exit(main())
