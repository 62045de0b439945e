"""`python3 -m tcc.versions` makes records with the versions that a store gave: see `tcc.judging.versions`."""
import sys

from tcc.judging.versions import main

if __name__ == "__main__":
    sys.exit(main())
