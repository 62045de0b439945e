"""`python3 -m tcc.sessions` makes records with a session for each client and node: see `tcc.record.sessions`."""
import sys

from tcc.record.sessions import main

if __name__ == "__main__":
    sys.exit(main())
