"""Builds the package with what Python has, for pip and others who ask as PEP 517 and PEP 660 say.

What a wheel says of itself comes from pyproject.toml; of TOML this reads what is there: sections, and names with a text, or a list of one.
"""
import base64
import hashlib
import io
import os
import pathlib
import re
import tarfile
import zipfile
from typing import Any, Dict, Iterator, List, Optional, Tuple

TOP = pathlib.Path(__file__).resolve().parent.parent
SECTION = re.compile(r"\[([^]]+)\]")
TEXT = re.compile(r'([\w-]+) = "(.*)"')
LIST = re.compile(r'([\w-]+) = \["(.*)"\]')
# The time of each file in an archive, so that the same files make the same bytes.
TIME = (2000, 1, 1, 0, 0, 0)
ENTRY_POINTS = {"project.scripts": "console_scripts", "project.entry-points.pytest11": "pytest11"}
Settings = Optional[Dict[str, Any]]


def project() -> Dict[str, Dict[str, str]]:
    """The texts of pyproject.toml by section and name."""
    found: Dict[str, Dict[str, str]] = {}
    section = ""
    for line in (TOP / "pyproject.toml").read_text(encoding="utf-8").splitlines():
        heading, text = SECTION.fullmatch(line), TEXT.fullmatch(line) or LIST.fullmatch(line)
        if heading:
            section = heading.group(1)
        elif text:
            found.setdefault(section, {})[text.group(1)] = text.group(2)
    return found


def stem() -> str:
    told = project()["project"]
    return "%s-%s" % (told["name"].replace("-", "_"), told["version"])


def metadata() -> str:
    told = project()["project"]
    fields = (("Metadata-Version", "2.1"), ("Name", told["name"]), ("Version", told["version"]), ("Summary", told["summary"]),
              ("License", told["license"]), ("Requires-Python", told["requires-python"]),
              ("Description-Content-Type", "text/markdown"))
    extras = tuple(field for name, needs in project().get("project.optional-dependencies", {}).items() for field in (
        ("Provides-Extra", name), ("Requires-Dist", '%s; extra == "%s"' % (needs, name))))
    text = "".join("%s: %s\n" % field for field in fields + extras)
    return text + "\n" + (TOP / "README.md").read_text(encoding="utf-8")


def entry_points() -> str:
    told = project()
    return "\n".join("[%s]\n" % group + "".join("%s = %s\n" % pair for pair in sorted(told.get(section, {}).items()))
                     for section, group in ENTRY_POINTS.items())


def about() -> List[Tuple[str, bytes]]:
    """The files that describe the wheel, but for the list of all."""
    folder = stem() + ".dist-info/"
    wheel = "Wheel-Version: 1.0\nGenerator: wheels\nRoot-Is-Purelib: true\nTag: py3-none-any\n"
    texts = (("METADATA", metadata()), ("WHEEL", wheel), ("entry_points.txt", entry_points()))
    return [(folder + name, text.encode()) for name, text in texts]


def sources() -> Iterator[Tuple[str, bytes]]:
    for path in sorted((TOP / "tcc").rglob("*")):
        if path.suffix in (".py", ".typed"):
            yield path.relative_to(TOP).as_posix(), path.read_bytes()


def write_wheel(folder: str, files: List[Tuple[str, bytes]]) -> str:
    """Writes a wheel of these files, with the list of them, and gives its name."""
    record = stem() + ".dist-info/RECORD"
    listed = ""
    for name, data in files:
        digest = base64.urlsafe_b64encode(hashlib.sha256(data).digest()).rstrip(b"=").decode()
        listed += "%s,sha256=%s,%d\n" % (name, digest, len(data))
    wheel = stem() + "-py3-none-any.whl"
    with zipfile.ZipFile(os.path.join(folder, wheel), "w", zipfile.ZIP_DEFLATED) as out:
        for name, data in [*files, (record, (listed + record + ",,\n").encode())]:
            inside = zipfile.ZipInfo(name, TIME)
            inside.compress_type, inside.external_attr = zipfile.ZIP_DEFLATED, 0o100644 << 16
            out.writestr(inside, data)
    return wheel


def build_wheel(wheel_directory: str, config_settings: Settings = None, metadata_directory: Optional[str] = None) -> str:
    return write_wheel(wheel_directory, [*sources(), *about()])


def build_editable(wheel_directory: str, config_settings: Settings = None, metadata_directory: Optional[str] = None) -> str:
    """A wheel that leads to this folder."""
    return write_wheel(wheel_directory, [("tcc_recipes.pth", (str(TOP) + "\n").encode()), *about()])


def build_sdist(sdist_directory: str, config_settings: Settings = None) -> str:
    """An archive of this folder."""
    name = stem() + ".tar.gz"
    files = [*sources(), *((path.relative_to(TOP).as_posix(), path.read_bytes()) for path in (
        TOP / "pyproject.toml", TOP / "README.md", TOP / "backend/wheels.py")), ("PKG-INFO", metadata().encode())]
    with tarfile.open(os.path.join(sdist_directory, name), "w:gz") as out:
        for inside, data in files:
            one = tarfile.TarInfo(stem() + "/" + inside)
            one.size = len(data)
            out.addfile(one, io.BytesIO(data))
    return name
