"""`python3 -m tcc.all` lists the anomalies of a history, each with its usual name: see `tcc.judging.all`."""
import sys

from tcc.judging.all import main

if __name__ == "__main__":
    sys.exit(main())
