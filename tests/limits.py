"""The limits of an input: from the sources, as wanted answers take them, or as a program says them."""
import functools
import json
import pathlib
import re
import subprocess
from typing import Any, Dict

CRATES = pathlib.Path(__file__).resolve().parent.parent / "crates"
SOURCES = ("tcc_txn/src/limits.rt", "tcc_base/src/workers.rt")
CONSTANT = re.compile(r"^pub const (\w+): \w+ = ([^;]+);", re.MULTILINE)
# In braces an expression over the limits: with a comma before each three digits, or plain after an exclamation mark.
TEMPLATE = re.compile(r"\{(!?)([A-Z_+1 ]+)\}")
# In a rule of a row case: a brace, or an expression over the limits, and how it is printed.
RULED = re.compile(r"\{\{|\}\}|\{([^{}:]+):?([^{}]*)\}")


@functools.lru_cache(maxsize=None)
def limits() -> Dict[str, int]:
    """The constants by name, each over those before it."""
    known: Dict[str, int] = {}
    for path in SOURCES:
        for name, value in CONSTANT.findall((CRATES / path).read_text()):
            known[name] = sum(known[part] if part in known else int(part.replace("_", "")) for part in value.split(" + "))
    return known


def of_answer(large: bool) -> Dict[str, int]:
    """The limits of a run, as the line of `--full` has them."""
    known, of = limits(), "LARGE" if large else "MAX"
    return {"bytes": known[of + "_INPUT_BYTES"], "keys": known[of + "_KEYS"], "operations": known["MAX_OPERATIONS"],
            "seals": known[of + "_SEALS"], "sessions": known[of + "_SESSIONS"], "transactions": known[of + "_TRANSACTIONS"]}


def of_program() -> Dict[str, Any]:
    """All limits, as the line of `tcc limits --json` has them."""
    known = limits()
    return {"answer": "limits", "default": of_answer(False), "large": of_answer(True), "name_bytes": known["MAX_NAME_BYTES"],
            "workers": known["MAX_WORKERS"]}


@functools.lru_cache(maxsize=None)
def asked(*tcc: str) -> Dict[str, Any]:
    """The limits that a program has, by which a history is made that is above them or at them."""
    return json.loads(subprocess.run([*tcc, "limits", "--json"], stdout=subprocess.PIPE, check=True).stdout)


def with_limits(line: Any) -> Any:
    """A line of `--full` with its limits, where it says only which; any other value as it is."""
    if not isinstance(line, dict) or line.get("limits") not in ("default", "large"):
        return line
    return {**line, "limits": of_answer(line["limits"] == "large")}


def ruled(line: str) -> str:
    """A line of a row case, with the values of rules over the limits alone."""
    known = {"__builtins__": {}, "min": min, "max": max, **limits()}
    return RULED.sub(lambda found: format(eval(found[1], known), found[2]) if found[1] else found[0][0], line)


def filled(template: str) -> str:
    """A sentence with its limits as numbers."""
    known = limits()

    def number(found: "re.Match[str]") -> str:
        value = sum(known.get(part.strip()) or int(part) for part in found.group(2).split("+"))
        return str(value) if found.group(1) else format(value, ",")

    return TEMPLATE.sub(number, template)


def form_of(template: str) -> str:
    """A pattern of the sentence with any numbers in the place of its limits."""
    return r"[\d,]*\d".join(re.escape(part) for part in TEMPLATE.sub("{}", template).split("{}"))
