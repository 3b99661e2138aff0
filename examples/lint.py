#!/usr/bin/env python3
"""Says what is wrong with the lines of a trace, and names the member: python3 examples/lint.py [TRACE ...]

    line 4: changes[0].flags[0]: "EV_ADD" is not one of ADD, DELETE, ..; did you mean ADD?

It finds each bad line, where kqsim ends at the first one. The rules are those of docs/trace.schema.json.
The status is 0 where nothing is wrong, 1 where something is, and 2 where a trace could not be checked.
It needs Python 3.9 and its module jsonschema, 4.0 or later (Debian: python3-jsonschema).
"""
from __future__ import annotations

import argparse
import difflib
import json
import os
import re
import sys
from typing import Any, Iterable, Iterator

try:
    from jsonschema import Draft202012Validator
    from jsonschema.validators import extend
except ImportError:
    Draft202012Validator = None

SCHEMA = f"{os.path.dirname(os.path.dirname(os.path.abspath(__file__)))}/docs/trace.schema.json"
MOST_LINE_BYTES, MOST_RECORDS, MOST_NESTED = 1 << 20, 1_000_000, 127
TYPES = {"integer": "a whole number", "array": "a list", "object": "an object", "boolean": "true or false"}


class NotWhole(float):
    """A number that is not whole to kqsim: one with a point or an exponent, -0, or one far beyond 64 bits."""

    text: str

    def __new__(cls, text: str) -> NotWhole:
        number = super().__new__(cls, text)
        number.text = text
        if abs(number) == float("inf"):
            raise ValueError(f"the number {shown(number)} is too large")
        return number


def whole(text: str) -> int | NotWhole:
    return NotWhole(text) if text == "-0" or len(text) > 20 else int(text)


def refuse(name: str) -> None:
    raise ValueError(f"{name} is no value")


def read_line(line: bytes) -> Any:
    """Returns the value on a line, or raises a ValueError where the line is not JSON to kqsim."""
    try:
        text = line.decode("utf-8")
    except UnicodeDecodeError as error:
        raise ValueError(f"a byte that is not UTF-8: column {error.start + 1}") from None
    if not text.strip(" \t\r"):
        raise ValueError("the line is empty")
    depth = 0
    for bracket in re.findall(r'"(?:[^"\\]|\\.)*"|[\[{]|[\]}]', text):
        depth += {"[": 1, "{": 1, "]": -1, "}": -1}.get(bracket, 0)
        if depth > MOST_NESTED:
            raise ValueError(f"nested more than {MOST_NESTED} times")
    try:
        value = json.loads(text, parse_float=NotWhole, parse_int=whole, parse_constant=refuse)
        json.dumps(value, ensure_ascii=False).encode("utf-8")  # no half of a surrogate pair
    except json.JSONDecodeError as error:
        raise ValueError(f"{error.msg}: column {error.colno}") from None
    except UnicodeEncodeError:
        raise ValueError("half of a surrogate pair") from None
    return value


class Schema:
    """The schema of a line, with whole numbers as kqsim reads them: to JSON Schema 1.0 is one too."""

    def __init__(self, path: str = SCHEMA) -> None:
        with open(path, encoding="utf-8") as file:
            kinds = json.load(file)["$defs"]
        checker = Draft202012Validator.TYPE_CHECKER.redefine("integer", lambda _, it: type(it) is int)
        exact = extend(Draft202012Validator, type_checker=checker)
        self.ops: list[str] = kinds["record"]["properties"]["op"]["enum"]
        names = ["header", "record", *self.ops]
        self.validators = {it: exact({"$ref": f"#/$defs/{it}", "$defs": kinds}) for it in names}

    def is_header(self, value: Any) -> bool:
        return self.validators["header"].is_valid(value)

    def errors(self, value: Any) -> Iterator[Any]:
        """Yields the errors of a record: by the schema of its kind, where it has one."""
        op = value.get("op") if isinstance(value, dict) else None
        yield from self.validators[op if op in self.ops else "record"].iter_errors(value)


def shown(value: Any) -> str:
    text = value.text if isinstance(value, NotWhole) else json.dumps(value)
    return text if len(text) <= 40 else f"{text[:38]}.."


def place(path: Iterable[Any]) -> str:
    """Returns a path as one writes it: changes[0].flags[0]."""
    return "".join(f"[{it}]" if isinstance(it, int) else f".{it}" for it in path)[1:]


def meant(word: Any, names: Iterable[str]) -> str:
    """Returns the name that is most like a word, with FreeBSD's prefixes or without."""
    near = {it.lower(): it for it in names}
    bare = re.sub(r"^(ev|evfilt|note)_", "", str(word).lower())
    found = difflib.get_close_matches(bare, near, 1)
    return near[found[0]] if found else ""


def unlisted(value: Any, names: list[str]) -> str:
    like = meant(value, names)
    few = names if len(names) < 4 or not like else [*names[:2], ".."]
    return f"{shown(value)} is not one of {', '.join(few)}" + (f"; did you mean {like}?" if like else "")


def mistyped(value: Any, kind: str) -> str:
    hint = ""
    if kind == "integer" and isinstance(value, NotWhole):
        hint = "; write it without point and exponent" if re.search("[.eE]", value.text) else " of 64 bits"
        hint = "; write 0" if value.text == "-0" else hint
    if kind == "integer" and isinstance(value, str) and value.isdigit():
        hint = "; write it without quotes"
    return f"{shown(value)} is not {TYPES[kind]}{hint}"


def told(error: Any) -> Iterator[str]:
    """Yields what an error says, each time behind the member that it is about."""
    at, value, rule = list(error.absolute_path), error.instance, error.validator_value
    if error.validator == "required":
        yield from (f"{place([*at, it])}: missing" for it in rule if it not in value)
    elif error.validator == "additionalProperties":
        known = error.schema["properties"]
        for name in (it for it in value if it not in known):
            like = meant(name, (it for it in known if it not in value))
            yield f"{place([*at, shown(name)[1:-1]])}: no such member" + (f"; did you mean {like}?" if like else "")
    elif error.validator == "type":
        yield (f"{place(at)}: " if at else "") + mistyped(value, rule)
    elif error.validator == "enum":
        yield f"{place(at)}: {unlisted(value, rule)}"
    elif not isinstance(value, NotWhole):
        yield f"{place(at)}: {value} is not from {error.schema['minimum']} to {error.schema['maximum']}"


def findings(trace: bytes, schema: Schema) -> Iterator[tuple[int, str]]:
    """Yields the number of each bad line of a trace, and what is wrong with it."""
    for number, line in enumerate(trace[: -1 if trace.endswith(b"\n") else None].split(b"\n"), 1):
        if number > MOST_RECORDS + 1:
            yield number, f"a trace has at most {MOST_RECORDS} records"
            return
        if len(line) > MOST_LINE_BYTES:
            yield number, f"the line has more than {MOST_LINE_BYTES} bytes"
            continue
        try:
            value = read_line(line)
        except ValueError as error:
            yield number, f"not JSON: {error}"
            continue
        if number > 1:
            said = dict.fromkeys(it for error in schema.errors(value) for it in told(error))
            yield from ((number, it) for it in said)
        elif not schema.is_header(value):
            yield number, 'the first line is {"kqsim":1} or {"kqsim":2}'


def parsed(words: list[str]) -> argparse.Namespace:
    about, example, *rest = (__doc__ or "").split("\n\n")
    parser = argparse.ArgumentParser(
        prog="lint.py",
        description=about.split(":")[0] + ".",
        epilog="\n\n".join(["An example of a line that is printed:", example, *rest]),
        formatter_class=argparse.RawDescriptionHelpFormatter,
    )
    parser.add_argument("traces", metavar="TRACE", nargs="*", default=["-"], help="a file, or - for standard input")
    parser.add_argument("--schema", metavar="FILE", default=SCHEMA, help="the schema, else docs/trace.schema.json")
    return parser.parse_args(words)


def main() -> int:
    given = parsed(sys.argv[1:])
    if Draft202012Validator is None:
        print("lint.py: needs Python's module jsonschema, 4.0 or later", file=sys.stderr)
        return 2
    found = 0
    try:
        schema = Schema(given.schema)
        for path in given.traces:
            with sys.stdin.buffer if path == "-" else open(path, "rb") as file:
                trace = file.read()
            for number, what in findings(trace, schema):
                print(f"{path}: line {number}: {what}" if len(given.traces) > 1 else f"line {number}: {what}")
                found = 1
    except OSError as error:
        print(f"lint.py: {error.filename}: {error.strerror}", file=sys.stderr)
        return 2
    return found


if __name__ == "__main__":
    sys.exit(main())
