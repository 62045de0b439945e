"""Turns values of EDN, such as the maps of Jepsen's history.edn, into lines of JSON, one a value.

Where the whole input is one vector of maps, as some histories are, each map has a line. Keywords and symbols become texts
without their colon, nil becomes null, vectors, lists and sets become arrays. A whole number stays one, whatever its size. A
number with a point becomes JSON's, and a ratio, which JSON doesn't have, a text. Keys of a map that aren't texts become the
text of their JSON. Of a tagged value the tag is left out, and of a value with metadata the metadata; standard error says so.

Where the input is no EDN, or has ##NaN, ##Inf or ##-Inf, which no JSON has, nothing is printed, but the line where that
shows, and the status is 1. The same holds of a map that has a key twice, of a number with a point that is too great for JSON's,
and of a whole number of more than 4,300 digits.
"""
import argparse
import itertools
import json
import re
import sys
from collections import Counter
from dataclasses import dataclass, field
from typing import Any, Counter as Count, Iterator, List, TextIO

from tcc.common.progress import Doing, status_of
from tcc.common.rows import Json
from tcc.common.words import command_line

EXAMPLE = """example:
  $ echo '{:type :ok, :process 3, :f :txn, :value [[:r :x nil] [:w :y 5]]}' | edn.py
  {"type": "ok", "process": 3, "f": "txn", "value": [["r", "x", null], ["w", "y", 5]]}
"""
# Between tokens: whitespace and commas, and comments. A token: a text, a character, a mark, or a word.
BLANK = re.compile(r"[\s,]*")
TOKEN = re.compile(r'"(?:[^"\\]|\\.)*"|\\(?:u[0-9a-fA-F]{4}|[a-z]+|.)|#_|#\{|\^|#:?[A-Za-z][^\s,;"(){}\[\]\\]*|[(){}\[\]]'
                   r"|[^\s,;\"(){}\[\]\\#][^\s,;\"(){}\[\]\\]*|\#\#(?:-?Inf|NaN)", re.DOTALL)
PULLED = 64  # lines at a time
CLOSING = {"(": ")", "[": "]", "{": "}", "#{": "}"}
WORDS = {"nil": None, "true": True, "false": False}
WHOLE = re.compile(r"([+-]?[0-9]+)N?")
POINTED = re.compile(r"[+-]?[0-9]+(?:\.[0-9]*)?(?:[eE][+-]?[0-9]+)?M?")
ESCAPED = re.compile(r"\\(u[0-9a-fA-F]{4}|.)", re.DOTALL)
MOST_DIGITS = 4300  # of a whole number: some hundred thousand would take minutes to turn into another base
ESCAPES = {"t": "\t", "r": "\r", "n": "\n", "b": "\b", "f": "\f", '"': '"', "\\": "\\"}
CHARACTERS = {"newline": "\n", "return": "\r", "space": " ", "tab": "\t", "backspace": "\b", "formfeed": "\f"}


class NoEdn(Exception):
    """What is there is no EDN."""


class Word(str):
    """A keyword or a symbol: a text without its colon, which knows how EDN has it."""

    __slots__ = ("edn",)
    edn: str


def word(edn: str) -> Word:
    made = Word(edn[1:] if edn[0] == ":" else edn)
    made.edn = edn
    return made


def in_namespace(key: Any, name: str) -> Any:
    """A key of the map of a namespace: a word without a namespace of its own is in that of the map, and one of `_` in none."""
    if not isinstance(key, Word):
        return key
    own, slash, rest = key.partition("/")
    return rest if slash and own == "_" else key if slash else "%s/%s" % (name, key)


@dataclass
class Reader:
    """Reads the values of a text, one after the other; the text comes some lines at a time, as far as it is needed."""

    lines: Iterator[str]
    text: str = ""
    at: int = 0
    left_out: "Count[str]" = field(default_factory=Counter)
    counted: int = 0  # up to here the line was counted
    number: int = 1
    pulled: int = PULLED

    def line(self) -> int:
        """The line of what comes next."""
        self.number += self.text.count("\n", self.counted, self.at)
        self.counted = self.at
        return self.number

    def fails(self, why: str, at: int) -> NoEdn:
        return NoEdn("line %d: %s" % (self.text.count("\n", 0, at) + self.number - self.text.count("\n", 0, self.counted), why))

    def past_gap(self) -> int:
        """Where something else comes, after what is between tokens."""
        at = self.at
        while True:
            found = BLANK.match(self.text, at)
            at = found.end() if found else at
            if self.text[at:at + 1] != ";":
                return at
            end = self.text.find("\n", at)
            at = len(self.text) if end < 0 else end

    def drop(self) -> None:
        """Lets go of the text where it was read to its end: nothing in it can be said any more."""
        if self.past_gap() == len(self.text):
            self.at = len(self.text)
            self.line()
            self.text, self.at, self.counted, self.pulled = "", 0, 0, PULLED

    def more(self) -> bool:
        """Whether there were more lines, which now come after the text; of a long value each time twice as many."""
        lines = "".join(itertools.islice(self.lines, self.pulled))
        self.text += lines
        self.pulled *= 2
        return bool(lines)

    def skip(self) -> bool:
        """Goes past what is between tokens; whether there is one."""
        while True:
            self.at = self.past_gap()
            if self.at < len(self.text):
                return True
            if not self.more():
                return False

    def token(self) -> str:
        """The next token; none at the end of the text."""
        if not self.skip():
            return ""
        found = TOKEN.match(self.text, self.at)
        while not found and self.text[self.at] == '"' and self.more():  # a text may go on over several lines
            found = TOKEN.match(self.text, self.at)
        if not found:
            raise self.fails("no EDN begins with %r" % self.text[self.at:self.at + 10], self.at)
        self.at = found.end()
        return found.group()

    def values(self, closing: str = "") -> Iterator[object]:
        """The values up to the closing token, which is the end of the text where there is none."""
        opened = self.at
        while (token := self.token()) != closing:
            if not token:
                raise self.fails("what begins here has no end: %r is missing" % closing, opened)
            if token == "#_":
                self.discard()
            else:
                yield self.value(token)
            if not closing:
                self.drop()

    def value_of_all(self) -> Any:
        """The value that is the whole text."""
        return list(self.values())[0]

    def discard(self) -> None:
        """Goes past a value that is none of the input's."""
        kept = self.left_out.copy()
        self.value(self.token())
        self.left_out = kept

    def value(self, token: str) -> Any:
        while token == "#_":
            self.discard()
            token = self.token()
        if token in CLOSING:
            inner = list(self.values(CLOSING[token]))
            return self.map_of(inner) if token == "{" else inner
        if token in ("", ")", "]", "}"):
            raise self.fails("a value is missing", self.at)
        if token[0] == '"':
            return self.string(token[1:-1])
        if token[0] == "\\":
            return character(token[1:])
        if token == "^":
            return self.behind_metadata()
        if token.startswith("##"):
            raise self.fails("%s is no number of JSON" % token, self.at)
        if token.startswith("#:"):
            return self.map_of_namespace(token[2:])
        if token[0] == "#":
            self.left_out["the tag %s" % token[1:]] += 1
            return self.value(self.token())
        try:
            return atom(token)
        except NoEdn as error:
            raise self.fails(str(error), self.at) from error

    def behind_metadata(self) -> Any:
        """The value to which the metadata belongs that comes next."""
        self.discard()
        self.left_out["metadata"] += 1
        return self.value(self.token())

    def map_of_namespace(self, name: str) -> Json:
        """The map after the name of a namespace: `#:a{:b 1}` is `{:a/b 1}`."""
        if self.token() != "{":
            raise self.fails("#:%s without a map after it" % name, self.at)
        inner = list(self.values("}"))
        return self.map_of([in_namespace(one, name) if place % 2 == 0 else one for place, one in enumerate(inner)])

    def map_of(self, inner: List[Any]) -> Json:
        if len(inner) % 2:
            raise self.fails("a map with a key that has no value", self.at - 1)
        keys = [key if isinstance(key, str) else json.dumps(key) for key in inner[::2]]
        found = dict(zip(keys, inner[1::2]))
        if len(found) < len(keys):
            twice = next(key for number, key in enumerate(keys) if key in keys[:number])
            raise self.fails("a map that has the key %s twice" % json.dumps(twice), self.at - 1)
        return found

    def string(self, inner: str) -> str:
        def plain(found: "re.Match[str]") -> str:
            one = found.group(1)
            if one[0] == "u":
                return chr(int(one[1:], 16))
            if one not in ESCAPES:
                raise self.fails("a text with the unknown escape \\%s" % one, self.at)
            return ESCAPES[one]

        return ESCAPED.sub(plain, inner)


def character(name: str) -> str:
    if len(name) == 5 and name[0] == "u":
        return chr(int(name[1:], 16))
    return CHARACTERS.get(name, name)


def atom(token: str) -> Any:
    """A word: nil, true, false, a number, or the name of a keyword or a symbol."""
    if token in WORDS:
        return WORDS[token]
    whole = WHOLE.fullmatch(token)
    if whole:
        if len(whole.group(1)) > MOST_DIGITS:
            raise NoEdn("a whole number of %d digits; at most %d are read" % (len(whole.group(1).lstrip("+-")), MOST_DIGITS))
        return int(whole.group(1))
    if POINTED.fullmatch(token):
        number = float(token.rstrip("M"))
        if number in (float("inf"), float("-inf")):
            raise NoEdn("%s is too great for a number of JSON" % token[:20])
        return number
    return word(token)


def arguments() -> argparse.Namespace:
    ask = command_line(__doc__, EXAMPLE)
    ask.add_argument("file", nargs="?", metavar="FILE", help="the file of the values, by default standard input")
    return ask.parse_args()


def told_apart(values: List[object]) -> List[object]:
    """The values; where there is one, and it is a vector of maps, those."""
    if len(values) == 1 and isinstance(values[0], list) and all(isinstance(one, dict) for one in values[0]):
        return values[0]
    return values


def run(asked: argparse.Namespace, doing: Doing, out: TextIO) -> None:
    with open(asked.file, "rb") if asked.file else sys.stdin.buffer as file:
        reader = Reader(line.decode() for line in file)
        lines = [json.dumps(value, allow_nan=False) for value in told_apart(list(reader.values()))]
    doing.clear()
    out.writelines(line + "\n" for line in lines)
    out.flush()
    for what, times in sorted(reader.left_out.items()):
        print("edn.py: left out: %s (%d)" % (what, times), file=sys.stderr)


def main() -> int:
    asked = arguments()
    return status_of("edn.py", "reads EDN", lambda doing: run(asked, doing, sys.stdout), "interrupted: the lines aren't all there",
                     (NoEdn, OSError, ValueError, RecursionError))


if __name__ == "__main__":
    sys.exit(main())
