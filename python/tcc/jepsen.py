"""`python3 -m tcc.jepsen` turns a history of Jepsen or Elle into records: see `tcc.imports.jepsen`."""
import sys

from tcc.imports.jepsen import main

if __name__ == "__main__":
    sys.exit(main())
