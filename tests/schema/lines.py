"""Lines for tests/schema/run: those of the worked rows and the examples, and made ones."""
import itertools
import json
import os

TOP = os.path.dirname(os.path.dirname(os.path.dirname(os.path.abspath(__file__))))

RECORDS = {
    "proc": "pid",
    "fork": "pid child",
    "exec": "pid",
    "exit": "pid status",
    "sigset": "pid sig ignore",
    "sig": "pid sig",
    "kqueue": "pid fd",
    "dup": "pid fd to",
    "close": "pid fd",
    "socket": "pid fd rcv snd",
    "listen": "pid fd backlog",
    "arrive": "pid fd",
    "accept": "pid fd to rcv snd",
    "connect": "pid fd",
    "rx": "pid fd n",
    "tx": "pid fd n",
    "shut": "pid fd side error",
    "lowat": "pid fd side n",
    "pipe": "pid rfd wfd cap",
    "read": "pid fd n",
    "write": "pid fd n",
    "file": "file size",
    "open": "pid fd file mode",
    "seek": "pid fd offset",
    "truncate": "file size",
    "note": "file note",
    "clock": "ns",
    "kevent": "pid fd changes room",
}
CHANGE = "ident filter flags fflags data udata"

# the names that a member takes, and two that it does not
NAMES = {
    "ignore": (["true", "false"], ['"true"', "0"]),
    "side": (['"read"', '"write"'], ['"both"', '"READ"']),
    "mode": (['"r"', '"w"', '"rw"'], ['"wr"', '""']),
    "note": (['"attrib"', '"link"', '"rename"', '"delete"', '"revoke"'], ['"write"', '"NOTE_LINK"']),
    "filter": (
        [f'"{it}"' for it in "READ WRITE VNODE PROC SIGNAL TIMER USER AIO LIO FS PROCDESC SENDFILE EMPTY".split()],
        ['"EVFILT_READ"', '"user"'],
    ),
}
FLAGS = "ADD DELETE ENABLE DISABLE ONESHOT CLEAR DISPATCH RECEIPT EOF ERROR".split()

U32, U64, I64 = (0, 2**32 - 1), (0, 2**64 - 1), (-(2**63), 2**63 - 1)
RANGES = {"ns": (0, 2**63 - 1), "size": I64, "offset": I64, "data": I64, "ident": U64, "udata": U64}

# what is no whole number; to JSON Schema 1.0, 1e0, 1E-400 (which is read as 0.0) and -0 are
WRONG = ('"1"', "1.0", "null", "-0", "true", "1e0", "[1]", "{}", "0.5", "-1.0", "99999999999999999999999", "1E-400")

# whole lines, the last of them no JSON
OTHERS = (
    "[]",
    "1",
    "1.0",
    '"proc"',
    "null",
    "true",
    "{}",
    '{"op":null}',
    '{"op":1,"pid":1}',
    '{"op":["proc"],"pid":1}',
    '{"op":"Proc","pid":1}',
    '{"op":"","pid":1}',
    '{"op":"kqsim","kqsim":1}',
    '{"op":"proc","pid":1,"kqsim":1}',
    '{"op":"proc","pid":"x","pid":1}',
    '{"op":"proc","pid":1,"pid":"x"}',
    '{"op":"pro\\u0063","p\\u0069d":1}',
    '\t{ "pid" : 1 , "op" : "proc" } \r',
    '{"op":"proc","pid":' + "[" * 126 + "]" * 126 + "}",
    '{"op":"proc","pid":' + "[" * 127 + "]" * 127 + "}",
    '{"op":"proc","pid":"[[[[{{{{\\"[[["}',
    '{"op":"proc","pid":NaN}',
    '{"op":"proc","pid":-Infinity}',
    '{"op":"proc","pid":1e400}',
    '{"op":"proc","pid":01}',
    '{"op":"proc","pid":+1}',
    '{"op":"proc","pid":"\\ud800"}',
    '{"op":"proc","pid":1,}',
    "{'op':'proc','pid':1}",
    '{"op":"proc","pid":1} // a comment',
    '{"op":"proc","pid":1}{}',
    "\ufeff" + '{"op":"proc","pid":1}',
    "",
    " \t\r",
)

HEADERS = (
    '{"kqsim":1}',
    '{"kqsim":2}',
    ' {"kqsim" : 2}\r',
    '{"kqsim":1,"kqsim":2}',
    '{"kqsim":0}',
    '{"kqsim":3}',
    '{"kqsim":-1}',
    '{"kqsim":1.0}',
    '{"kqsim":2e0}',
    '{"kqsim":"1"}',
    '{"kqsim":true}',
    '{"kqsim":null}',
    '{"kqsim":[1]}',
    '{"kqsim":1,"pid":1}',
    '{"version":1}',
    "{}",
    "[1]",
    "1",
    '{"op":"proc","pid":1}',
    '{"kqsim":1',
)


def contents(path):
    with open(f"{TOP}/{path}", "rb") as file:
        return file.read()


def traces():
    """Returns the paths of the traces of the worked rows and the examples."""
    return [f"{at}/{it}" for at in ("tests/rows", "examples") for it in sorted(os.listdir(f"{TOP}/{at}"))
            if it.endswith(".trace")]


def split(trace):
    """Returns the lines of a trace: an LF at its end adds none."""
    return trace[: -1 if trace.endswith(b"\n") else None].split(b"\n")


def object_of(members):
    return "{" + ",".join(f"{json.dumps(name)}:{text}" for name, text in members.items()) + "}"


def good(name):
    """Returns the text of a value that a member takes."""
    if name == "changes":
        return f"[{object_of({it: good(it) for it in CHANGE.split()})}]"
    if name == "flags":
        return '["ADD","CLEAR"]'
    return NAMES[name][0][0] if name in NAMES else "1"


def values(name, wrong):
    """Yields values of a member that are good and bad: names, or numbers at their limits and what is none."""
    if name in NAMES:
        yield from [*NAMES[name][0], *NAMES[name][1], "null", "1"]
    elif name == "flags":
        yield from (json.dumps(FLAGS[:count]) for count in range(11))
        yield from ('["ADD","ADD"]', '["EV_ADD"]', '["ADD",1]', '["add"]', "[null]", "[[]]")
        yield from ('"ADD"', "1", "null", "{}")
    elif name != "changes":
        least, greatest = RANGES.get(name, U32)
        yield from (str(it) for it in (least, least - 1, greatest, greatest + 1))
        yield from itertools.islice(wrong, 4)


def changed(members, fixed, wrong):
    """Yields an object as it is, without each of its members, with one more, and with other values of each."""
    yield object_of(members)
    yield object_of({**members, "name": '"init"'})
    for name in members:
        yield object_of({it: text for it, text in members.items() if it != name})
    for name in (it for it in members if it not in fixed):
        yield from (object_of({**members, name: text}) for text in values(name, wrong))


def made():
    """Yields made lines: of each kind of record, of changes, and others."""
    wrong = itertools.cycle(WRONG)
    for op, names in RECORDS.items():
        yield from changed({"op": f'"{op}"', **{it: good(it) for it in names.split()}}, ("op",), wrong)
    changes = [*changed({it: good(it) for it in CHANGE.split()}, (), wrong), "1", "null", "[]", '"USER"']
    lists = [*(f"[{it}]" for it in changes), f"[{changes[0]},{changes[0]},{changes[1]}]"]
    lists += ["[]", "{}", "null", "1", '"ADD"']
    yield from (object_of({"op": '"kevent"', "pid": "1", "fd": "9", "changes": it, "room": "4"}) for it in lists)
    yield from OTHERS


def record_lines():
    """Returns all lines behind a header, each once."""
    rows = [line for path in traces() for line in split(contents(path))[1:]]
    return [*dict.fromkeys([*rows, *(line.encode("utf-8", "surrogatepass") for line in made())])]


def header_lines():
    """Returns all first lines, each once."""
    return [*dict.fromkeys([*(split(contents(it))[0] for it in traces()), *(line.encode() for line in HEADERS)])]
