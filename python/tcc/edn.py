"""`python3 -m tcc.edn` turns values of EDN into lines of JSON: see `tcc.imports.edn`."""
import sys

from tcc.imports.edn import main

if __name__ == "__main__":
    sys.exit(main())
