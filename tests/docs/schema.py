#!/usr/bin/env python3
"""Holds docs/answer.schema.json against the lines of `--json` that the rows want, and docs/full.schema.json against those that
rows of `--full` and the cases of recipes/full.py want.

    schema.py

Each of these lines is of its schema, and each part of a schema has such a line. A line that lacks one of its keys, has one
more, or has another type of value at one, is not. The words of kinds and shapes are those of the sources. Each difference is one
line, as `run.py` has it, which asks this too; the last line is `N passed, M failed`. Where the library jsonschema is there, it has
to find the schema right, and to agree.
"""
import json
import pathlib
import re
import sys
from typing import Any, Dict, Iterable, Iterator, List, Tuple, Union

TOP = pathlib.Path(__file__).resolve().parent.parent.parent
sys.path.insert(0, str(TOP / "tests"))
from counted import Outcome, status_of  # noqa: E402
from limits import ruled, with_limits  # noqa: E402

Json = Dict[str, Any]
Place = Tuple[Union[str, int], ...]
TYPES = {"object": dict, "array": list, "string": str, "integer": int, "boolean": bool, "null": type(None)}
OTHERS = {str: 7, int: "7", bool: 7, list: {}, dict: [], type(None): []}
# What a line may lack, by its answer, and be one of another part.
MAY_LACK = {("consistent", "order"), ("anomaly", "least"), ("row", "session"), ("none", "session")}
# How the lines of a program or a script begin.
BEGINS = ('{"answer"', '{"contradicted"', '{"count"')
ENUMS = (
    (("row", "properties", "kind"), "crates/tcc_print/src/kinds.rt", r"RowFaultKind::(\w+)[^=]*=> KindReport", {"NoMemory", "Unfinished"}),
    (("fault", "properties", "kind"), "crates/tcc_reads/src/fault.rt", r"#\[error\([^)]*\)\]\n    (\w+),\n", {"NoMemory"}),
    (("anomaly", "properties", "shape"), "crates/tcc_answer/src/text.rt", r'Shape::\w+ => "([a-z-]+)"', set()),
    (("usual-name",), "crates/tcc_survey_run/src/naming.rt", r'UsualName::\w+ => "([a-z ]+)"', set()),
)


def is_of(value: Any, schema: Json, whole: Json) -> bool:
    """Whether a value is of a schema, by the words that ours use; `whole` has the definitions."""
    if "$ref" in schema:
        return is_of(value, whole["$defs"][schema["$ref"].rpartition("/")[2]], whole)
    if "oneOf" in schema and sum(is_of(value, one, whole) for one in schema["oneOf"]) != 1:
        return False
    if "const" in schema and (type(value), value) != (type(schema["const"]), schema["const"]):
        return False
    if "enum" in schema and (type(value), value) not in [(type(one), one) for one in schema["enum"]]:
        return False
    kind = schema.get("type")
    if kind and (not isinstance(value, TYPES[kind]) or isinstance(value, bool) != (kind == "boolean")):
        return False
    if isinstance(value, str):
        return re.search(schema.get("pattern", ""), value) is not None
    if isinstance(value, int):
        return schema.get("minimum", value) <= value <= schema.get("maximum", value)
    if isinstance(value, list):
        return len(value) >= schema.get("minItems", 0) and all(is_of(one, schema.get("items", {}), whole) for one in value)
    if isinstance(value, dict) and "properties" in schema:
        known = schema["properties"]
        return set(schema["required"]) <= set(value) <= set(known) and all(is_of(one, known[name], whole) for name, one in value.items())
    return True


def lines_of(paths: Iterable[pathlib.Path]) -> List[str]:
    """The lines of JSON that cases want whole."""
    found = set()
    for path in sorted(paths):
        case = json.loads(path.read_text())
        parts = [part for run in [case, *case.get("runs", [])] for part in run.get("output", []) if isinstance(run.get("output"), list)]
        lines = {part for part in parts if isinstance(part, str)}
        lines |= {ruled(part["rule"]) for part in parts if isinstance(part, dict) and "rule" in part}
        found |= {line for line in lines if line.startswith(BEGINS)}
        found |= {json.dumps(with_limits(part["json"])) for part in parts if isinstance(part, dict) and "answer" in part.get("json", {})}
    return sorted(found)


def objects(value: Any, path: Place = ()) -> Iterator[Place]:
    """The places of all objects in a value."""
    if isinstance(value, dict):
        yield path
    inner = value.items() if isinstance(value, dict) else enumerate(value) if isinstance(value, list) else ()
    for name, one in inner:
        yield from objects(one, (*path, name))


def altered(line: str) -> Iterator[Tuple[str, Any]]:
    """A line's value without each of its keys, with one more at each object, and with another type at each key."""
    for path in objects(json.loads(line)):
        for how in ("without", "other"):
            for name in list(at(json.loads(line), path)):
                value = json.loads(line)
                mine = at(value, path)
                if how == "without" and (value.get("answer"), name) in MAY_LACK:
                    continue
                was = mine.pop(name)
                if how == "other":
                    mine[name] = OTHERS[type(was)]
                yield "%s %s" % (how, "/".join(map(str, (*path, name)))), value
        value = json.loads(line)
        at(value, path)["more"] = 1
        yield "more at %s" % "/".join(map(str, path)), value


def at(value: Any, path: Place) -> Any:
    for name in path:
        value = value[name]
    return value


def enums(schema: Json) -> Iterator[Outcome]:
    """Whether the words of the parts that a schema has are those of the sources."""
    for place, source, pattern, others in (one for one in ENUMS if one[0][0] in schema["$defs"]):
        words = set(re.findall(pattern, (TOP / source).read_text())) - others
        told = set(at(schema["$defs"], (*place, "enum")))
        yield "schema: words of %s" % place[0], None if told == words else "they differ from %s in %s" % (source, sorted(told ^ words))


def outcomes_of(schema: Json, lines: List[str]) -> Iterator[Outcome]:
    title = schema["title"]
    yield from enums(schema)
    for line in lines:
        yield "%s: %s" % (title, line[:60]), None if is_of(json.loads(line), schema, schema) else "isn't of the schema"
        wrong = [how for how, value in altered(line) if is_of(value, schema, schema)]
        yield "%s: altered %s" % (title, line[:60]), "is of the schema: " + ", ".join(wrong[:5]) if wrong else None
    for part in schema["oneOf"]:
        has_one = any(is_of(json.loads(line), part, schema) for line in lines)
        yield "%s: %s" % (title, part["$ref"]), None if has_one else "no case has one"
    yield from by_library(schema, lines)


def by_library(schema: Json, lines: List[str]) -> Iterator[Outcome]:
    try:
        import jsonschema
    except ImportError:
        return
    try:
        jsonschema.Draft202012Validator.check_schema(schema)
    except jsonschema.SchemaError as error:
        yield schema["title"], error.message
        return
    judge = jsonschema.Draft202012Validator(schema)
    for line in lines:
        values = [json.loads(line), *(value for _, value in altered(line))]
        wrong = [value for value in values if judge.is_valid(value) != is_of(value, schema, schema)]
        yield "%s, by jsonschema: %s" % (schema["title"], line[:60]), "it disagrees on %s" % json.dumps(wrong[0])[:200] if wrong else None


def outcomes() -> Iterator[Outcome]:
    rows = set((TOP / "tests/rows/cases").glob("*.json"))
    full = set((TOP / "tests/rows/cases").glob("full-*.json"))
    for name, cases in (("answer", rows - full), ("full", full | {TOP / "tests/recipes/cases/full.json"})):
        yield from outcomes_of(json.loads((TOP / "docs" / (name + ".schema.json")).read_text()), lines_of(cases))


def main() -> int:
    return status_of(outcomes())


if __name__ == "__main__":
    sys.exit(main())
