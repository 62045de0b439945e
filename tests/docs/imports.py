"""What a file of sources, specs or proofs brings in from the specs of this repository."""
import re
from typing import Iterator, NamedTuple

LINE = re.compile(r"^ *(?:pub |ghost )*use Rattle\.(tcc_\w+)\.specs\.([\w.]*?)(?:\.?\{([^}]*)\}| as (\w+))", re.MULTILINE)


class Import(NamedTuple):
    """A name of a module of specs, or without a name that module, and what the file calls it."""

    crate: str
    module: str
    name: str
    called: str


def imports(text: str) -> Iterator[Import]:
    """What the `use` lines of a file bring in, whether a line names one module or several of a crate."""
    for crate, module, listed, alias in LINE.findall(text):
        if alias:
            yield Import(crate, module, "", alias)
        for one in filter(None, (one.strip() for one in listed.split(","))):
            path, _, renamed = one.partition(" as ")
            below, _, name = path.rpartition(".")
            yield Import(crate, ".".join(filter(None, (module, below))), name, renamed or name)
