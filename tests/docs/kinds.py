#!/usr/bin/env python3
"""What names the kinds of faults, from docs/faults.json.

    kinds.py [--write]

That file has each kind once, in the order of ranks. From it `--write` writes, in the sources, the variants of row faults and their
texts (`crates/tcc_rows/src/fault.rt`), the words and statuses that the program prints (`specs/Kinds.antt` and `src/kinds.rt` of
`tcc_print`), what its notes quote and expect (`specs/RowNotes.antt` and `src/notes/mending.rt` there), and the cases of a proof
(`crates/tcc_full/proofs/NoFloats.antt`). So it writes the public names (`surface.txt`), the tables of docs/FORMATS.md, the lists of
the man page and of GUIDE, the words of both schemas, the module `kinds` of the package, and the row cases that go through the kinds
(`row-faults-as-json.json`, `check-row-faults.json`). Without it a part that is another is one line, as `run.py` has it, which asks
this too; the last line is `N passed, M failed`.

Of a row fault `quotes` is what its note shows: one of the four fields, the record, or nothing. For a word the record is shown where
it has one field. The note goes on with `expected` and what `expects` says, a text or one of `FORMS`; or it is what `says` has. A
kind with neither is a limit, whose text is in `limit_text` and `push_limit`.
"""
import functools
import json
import pathlib
import re
import sys
import textwrap
from typing import Any, Callable, Dict, Iterator, List, Tuple

TOP = pathlib.Path(__file__).resolve().parent.parent.parent
sys.path.insert(0, str(TOP / "tests"))
from arguments import status_of_written  # noqa: E402
from counted import Outcome  # noqa: E402
from limits import filled, limits  # noqa: E402

Json = Dict[str, Any]
SOURCE_WIDTH, PAGE_WIDTH, SCHEMA_WIDTH = 100, 120, 150
QUOTED = re.compile(r"`([^`]+)`")
CODE = re.compile(r"((?:Status::\w+[ |]*)+) => (\d+),")
FIELDS = ("session", "word", "key", "value")
# What is expected of several kinds, in the code and in the specs.
FORMS = {"NAME": ("NAME", "name_form"), "RECORD": ("RECORD", "record_form"), "WORD": ("word_stands(fields)", "(word_stands fields)")}
# The arms of the match of a call whose clause ends so.
ARMS = r"(?s:(?<=%s \}\n\{\n    match kind \{\n).*?(?=    \}\n\}\n))"
# How wide the arguments of a call may be that is in one line.
CALL_WIDTH = 60


@functools.lru_cache(maxsize=None)
def kinds() -> Json:
    return dict(json.loads((TOP / "docs/faults.json").read_text()))


@functools.lru_cache(maxsize=None)
def codes() -> Dict[str, int]:
    """The number of each status."""
    text = (TOP / "crates/tcc_print/src/status.rt").read_text()
    return {name: int(code) for names, code in CODE.findall(text) for name in re.findall(r"Status::(\w+)", names)}


# The sources.

def variants() -> str:
    """The variants of a row fault."""
    found = []
    for one in kinds()["row"]:
        doc = textwrap.wrap(one["rule"], SOURCE_WIDTH, initial_indent="    /// ", subsequent_indent="    /// ")
        carries = " { %s }" % one["carries"] if "carries" in one else ""
        found.append("%s\n    #[error(\"%s\")]\n    %s%s,\n" % ("\n".join(doc), one["error"], one["kind"], carries))
    return "pub enum RowFaultKind {\n" + "".join(found) + "}\n"


def matched(of: str, one: Json) -> str:
    """The variant as a clause of the specs or of a proof has it."""
    return "(%s.%s %s)" % (of, one["kind"], one["carries"].partition(":")[0]) if "carries" in one else "%s.%s" % (of, one["kind"])


def matched_in_code(enum: str, one: Json) -> str:
    return "%s::%s%s" % (enum, one["kind"], " { .. }" if "carries" in one else "")


def told(of: str, kind: Json) -> str:
    """What the specs say of a kind."""
    name = kind["kind"]
    short = {"Limit": "passed_limit", "CertificateFault": "wrong_text"}.get(kind["status"])
    said = "%s (codes \"%s\")" % (short, name) if short else "record { word = codes \"%s\"; status = %s }" % (name, kind["status"])
    return "%s = %s\n" % (matched(of + "_kind", kind), said)


def of_specs(list_of: str, call: str, of: str) -> str:
    return "".join("%s %s" % (call, told(of, one)) for one in kinds()[list_of])


def arm(names: List[str], guard: str, call: str, arguments: List[str]) -> str:
    """An arm of a match for these kinds, in lines that `rt fmt` leaves as they are; nothing where there is none."""
    if not names:
        return ""
    head = "        %s%s =>" % (" | ".join(names), guard)
    if len(head) > SOURCE_WIDTH:
        head = "        %s%s =>" % ("\n        | ".join(names), guard and "\n            " + guard.strip())
    body = "%s(%s)" % (call, ", ".join(arguments)) if arguments else call
    is_long = len(head.splitlines()[-1]) + len(body) + 2 > SOURCE_WIDTH
    if is_long and not arguments:
        return "%s {\n            %s\n        }\n" % (head, body)
    if is_long or len(body) > len(call) + 2 + CALL_WIDTH:
        body = "%s(\n%s        )" % (call, "".join("            %s,\n" % one for one in arguments))
    return "%s %s,\n" % (head, body)


def of_code(list_of: str, enum: str) -> str:
    return "".join(arm([matched_in_code(enum, one)], "", "KindReport::new", ['"%s"' % one["kind"], "Status::" + one["status"]])
                   for one in kinds()[list_of])


def of_proof() -> str:
    """The cases of a lemma on row faults; the kinds that carry something come first."""
    ordered = sorted(kinds()["row"], key=lambda one: "carries" not in one)
    return "".join("in_session %s = refl\n" % matched("row", one) for one in ordered)


def quoted_in_specs() -> str:
    """What a note quotes of the record."""
    shown = {"record": "shown.Record", "nothing": "shown.Nothing", "word": "if nat_eq fields 1 then shown.Record else shown.Field 1"}
    return "".join("shown_of %s fields = %s\n" % (
        matched("row_kind", one), shown.get(one["quotes"]) or "shown.Field %d" % FIELDS.index(one["quotes"])) for one in kinds()["row"])


def expected_in_specs() -> str:
    """What a note says is expected."""
    def text(one: Json) -> str:
        if "says" in one:
            return "codes " + json.dumps(one["says"])
        if "expects" in one:
            return "stands_text " + (FORMS[one["expects"]][1] if one["expects"] in FORMS else "(codes %s)" % json.dumps(one["expects"]))
        return "limit_text limits " + matched("row_kind", one)

    return "".join("expected_text limits %s fields = %s\n" % (matched("row_kind", one), text(one)) for one in kinds()["row"])


def quoted_in_code() -> str:
    by = {name: [matched_in_code("RowFaultKind", one) for one in kinds()["row"] if one["quotes"] in name.split()]
          for name in (*FIELDS, "nothing", "record word")}
    fields = "".join(arm(by[name], " if fields != 1" if name == "word" else "", "Shown::Field(%d)" % at, []) for at, name in enumerate(FIELDS))
    return fields + arm(by["nothing"], "", "Shown::Nothing", []) + arm(by["record word"], "", "Shown::Record", [])


def expected_in_code() -> str:
    """Kinds of which the same is expected have one arm, and the limits the last."""
    calls: Dict[Tuple[str, ...], List[str]] = {}
    limited = ("push_limit", "alloc", "text", "limits", "kind")
    for one in kinds()["row"]:
        if "says" in one:
            call: Tuple[str, ...] = ("push", "text", "&[b%s]" % json.dumps(one["says"]))
        elif "expects" in one:
            call = ("push_stands", "text", FORMS[one["expects"]][0] if one["expects"] in FORMS else json.dumps(one["expects"]))
        else:
            call = limited
        calls.setdefault(call, []).append(matched_in_code("RowFaultKind", one))
    ordered = sorted(calls, key=lambda call: call == limited)
    return "".join(arm(calls[call], "", call[0], list(call[1:])) for call in ordered)


def of_surface() -> str:
    return " ".join("RowFaultKind::" + one["kind"] for one in kinds()["row"])


# The documents.

def shown_kinds() -> List[Json]:
    """The kinds of row faults that a line can name: all but that of memory, which has a line of its own."""
    return [one for one in kinds()["row"] if "where" in one]


def with_name(one: Json) -> str:
    return one["kind"] + (" " + one["carries"].partition(":")[0].upper() if "carries" in one else "")


def of_formats() -> str:
    rows = "".join("| %s | %s | %d |\n" % (with_name(one), filled(one["where"]), codes()[one["status"]]) for one in shown_kinds())
    return "| kind | where | status |\n|---|---|---|\n" + rows


def reads_of_formats() -> str:
    return "| read fault | where |\n|---|---|\n" + "".join("| %s | %s |\n" % (one["kind"], one["where"]) for one in kinds()["read"])


def of_page(name: str, sentence: str) -> str:
    """An entry of the man page; what is in backquotes is bold there."""
    word, _, more = name.partition(" ")
    head = '.BI %s " %s"' % (word, more) if more else ".B " + word
    lines = textwrap.wrap(filled(sentence[0].upper() + sentence[1:]), PAGE_WIDTH, break_on_hyphens=False)
    return ".TP\n%s\n%s\n" % (head, "\n".join(QUOTED.sub(lambda found: "\\fB%s\\fR" % found.group(1), line) for line in lines))


def rows_of_page() -> str:
    return "".join(of_page(with_name(one), one["page"]) for one in shown_kinds())


def reads_of_page() -> str:
    return "".join(of_page(one["kind"], one["page"]) for one in kinds()["read"])


def of_guide() -> str:
    return "".join("- `%s`%s: %s\n" % (one["kind"], " (%s)" % one["field"] if "field" in one else "", one["page"]) for one in kinds()["read"])


def words_of(names: List[str], indent: int) -> str:
    """The words of an enumeration in a schema."""
    listed = ", ".join(json.dumps(one) for one in names)
    return "\n".join(textwrap.wrap(listed, SCHEMA_WIDTH, initial_indent=" " * indent, subsequent_indent=" " * indent, break_long_words=False))


def rows_of_schema() -> str:
    return "\"kind\": {\"enum\": [\n%s\n        ]}" % words_of([one["kind"] for one in shown_kinds() if "carries" not in one], 10)


def reads_of_schema() -> str:
    return "\"kind\": {\"enum\": [%s]}" % words_of([one["kind"] for one in kinds()["read"]], 0)


# The package.

def of_package() -> str:
    reads = kinds()["read"]

    def table(name: str, about: str, members: List[Tuple[str, Any]]) -> str:
        rows = "".join("    %s: %s,\n" % (json.dumps(one), "(%s)" % ", ".join(map(json.dumps, what)) if isinstance(what, tuple) else json.dumps(what))
                       for one, what in members)
        return "# %s\n%s = {\n%s}\n" % (about, name, rows)

    return '"""The kinds of read faults, which tests/docs/kinds.py --write writes from docs/faults.json."""\n' + "".join((
        table("FAULTS", "Of each kind how it is called, and what the transaction did, a violation first.", [(one["kind"], (one["name"], one["about"]))
              for one in sorted(reads, key=lambda one: not one["is_violation"])]),
        table("FIELD_NAMES", "The names that the field has.", [(one["kind"], one["field"]) for one in reads if "field" in one]),
        table("VIOLATIONS", "What no promise lets be: others may be faults of the records.",
              [(one["kind"], one["name"]) for one in reads if one["is_violation"]]),
        table("WRITTEN", "What is said of the write that a fault is about: the first one of the value.",
              [(one["kind"], one["writer"]) for one in reads if "writer" in one]),
        table("OWN", "The same where that is the reader's own write of the key before.", [(one["kind"], one["own"]) for one in reads if "own" in one])))


# The row cases.

def parts(line: str) -> Any:
    """A line of a case: one with limits in it is a rule."""
    return {"rule": line} if "{" in line else line


def row_of(shown: Json) -> str:
    return str(shown["row"]) if isinstance(shown["row"], int) else "{%s}" % shown["row"]


def case(command: str, head: Json, run: Callable[[Json, str], Json]) -> str:
    """A case with a run for each kind that can be shown so."""
    shown = [one for one in kinds()["row"] if command in one.get("shown", {}).get("commands", ("explain", "check") if "shown" in one else ())]
    texts = []
    for one in shown:
        number = row_of(one["shown"])
        fields = {**run(one, number), "status": codes()[one["status"]], "errors": [parts("row %s: %s" % (number, one["shown"]["note"]))]}
        texts.append("    {\n%s\n    }" % ",\n".join("      %s: %s" % (json.dumps(name), json.dumps(what)) for name, what in fields.items()))
    return "{\n%s,\n  \"runs\": [\n%s\n  ]\n}\n" % (
        ",\n".join("  %s: %s" % (json.dumps(name), json.dumps(what)) for name, what in head.items()), ",\n".join(texts))


def as_json() -> str:
    def run(one: Json, number: str) -> Json:
        braces = ("{{", "}}") if "{" in number else ("{", "}")
        session = ',"session":"%s"' % one["shown"]["session"] if "carries" in one else ""
        line = '%s"answer":"row","kind":"%s","row":%s%s%s' % (braces[0], one["kind"], number, session, braces[1])
        return {"input": one["shown"]["records"], "output": [{"rule": line} if "{{" in line else line]}

    return case("explain", {"about": "Each fault of a record as JSON. tests/docs/kinds.py --write writes this.", "arguments": ["explain", "--json"]}, run)


def of_check() -> str:
    def run(one: Json, number: str) -> Json:
        session = " " + one["shown"]["session"] if "carries" in one else ""
        return {"files": {"history": one["shown"]["records"]}, "output": [parts("row %s: %s%s" % (number, one["kind"], session))]}

    about = "Each fault of a record of a history that is checked comes before what its certificate's text says. tests/docs/kinds.py --write writes this."
    return case("check", {"about": about, "arguments": ["check", "@history", "@certificate-text"], "files": {"certificate-text": ["no certificate"]}}, run)


# A file, what a part of it is like, and how it reads; without a pattern the whole file.
WRITTEN: Tuple[Tuple[str, str, Callable[[], str]], ...] = (
    ("crates/tcc_rows/src/fault.rt", r"(?s:pub enum RowFaultKind \{\n.*?\n\}\n)", variants),
    ("crates/tcc_print/specs/Kinds.antt", r"(?m:^row_told .*\n)+(?=\n)", lambda: of_specs("row", "row_told", "row")),
    ("crates/tcc_print/specs/Kinds.antt", r"(?:certificate_told text_kind.*\n)+", lambda: of_specs("certificate", "certificate_told", "text")),
    ("crates/tcc_print/src/kinds.rt", r"(?: +RowFaultKind::.* => KindReport::new\([^)]*\),\n)+", lambda: of_code("row", "RowFaultKind")),
    ("crates/tcc_print/src/kinds.rt", r"(?: +CertFaultKind::.* => KindReport::new\([^)]*\),\n)+", lambda: of_code("certificate", "CertFaultKind")),
    ("crates/tcc_print/specs/RowNotes.antt", r"(?m:^shown_of .*\n)+", quoted_in_specs),
    ("crates/tcc_print/specs/RowNotes.antt", r"(?m:^expected_text .*\n)+", expected_in_specs),
    ("crates/tcc_print/src/notes/mending.rt", ARMS % r"shown_of kind\.now fields", quoted_in_code),
    ("crates/tcc_print/src/notes/mending.rt", ARMS % r"expected_text limits kind\.now fields\)", expected_in_code),
    ("crates/tcc_full/proofs/NoFloats.antt", r"(?:in_session \(?row\..*\n)+", of_proof),
    ("tests/docs/surface.txt", r"RowFaultKind::\w+(?: RowFaultKind::\w+)*", of_surface),
    ("docs/FORMATS.md", r"\| kind \| where \| status \|\n(?:\|.*\n)+", of_formats),
    ("docs/FORMATS.md", r"\| read fault \| where \|\n(?:\|.*\n)+", reads_of_formats),
    ("docs/tcc.1", r"(?s:\.TP\n\.B FieldCount\n.*?(?=\.RE\n))", rows_of_page),
    ("docs/tcc.1", r"(?s:\.TP\n\.B Duplicate\n.*?(?=\.RE\n))", reads_of_page),
    ("docs/GUIDE.md", r"(?:- `[A-Z]\w+`(?: \(\w+\))?: .*\n)+", of_guide),
    ("docs/answer.schema.json", r'"kind": \{\s*"enum": \[\s*"FieldCount"[^]]*\]\s*\}', rows_of_schema),
    ("docs/answer.schema.json", r'"kind": \{\s*"enum": \[\s*"Duplicate"[^]]*\]\s*\}', reads_of_schema),
    ("docs/full.schema.json", r'"kind": \{\s*"enum": \[\s*"FieldCount"[^]]*\]\s*\}', rows_of_schema),
    ("docs/full.schema.json", r'"kind": \{\s*"enum": \[\s*"Duplicate"[^]]*\]\s*\}', reads_of_schema),
    ("python/tcc/common/kinds.py", "", of_package),
    ("tests/rows/cases/row-faults-as-json.json", "", as_json),
    ("tests/rows/cases/check-row-faults.json", "", of_check),
)


def write() -> None:
    for name, pattern, wanted in WRITTEN:
        path = TOP / name
        path.write_text(re.sub(pattern, lambda _: wanted(), path.read_text(), count=1) if pattern else wanted())


def outcomes() -> Iterator[Outcome]:
    for name, pattern, wanted in WRITTEN:
        path = TOP / name
        text = path.read_text() if path.exists() else ""
        found = re.findall(pattern, text) if pattern else [text]
        is_right = len(found) == 1 and found[0] == wanted()
        yield "%s: '%s..'" % (name, wanted().strip()[:20].replace("\n", " ")), None if is_right else "it isn't what docs/faults.json gives: tests/docs/kinds.py --write"


def main() -> int:
    return status_of_written("What names the kinds of faults, from docs/faults.json.", write, outcomes)


if __name__ == "__main__":
    sys.exit(main())
