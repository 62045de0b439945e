"""`python3 -m tcc.places` says where the transactions of a slice are in the whole history: see `tcc.show.places`."""
import sys

from tcc.show.places import main

if __name__ == "__main__":
    sys.exit(main())
