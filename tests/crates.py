"""What crates.txt says."""
import pathlib
from typing import Dict, List

TOP = pathlib.Path(__file__).resolve().parent.parent


def stands_on(top: pathlib.Path = TOP) -> Dict[str, List[str]]:
    """The crates of the repository, lowest first, each with the libraries that it names."""
    lines = [line.partition("#")[0].partition(":") for line in (top / "crates.txt").read_text().splitlines()]
    return {before.split()[0]: after.split() for before, colon, after in lines if colon}
