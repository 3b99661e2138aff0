"""Rows at and past the limits of a trace, whose inputs are too large to keep as files."""
HEADER = b'{"kqsim":1}\n'
OPENING = HEADER + b'{"op":"proc","pid":1}\n{"op":"kqueue","pid":1,"fd":9}\n'
LINE = 2**20
RECORDS = 1_000_000
INPUT = 2**28


def report(*lines):
    return b"".join(it + b"\n" for it in lines)


def fault(line, name):
    return b"", f"kqsim: line {line}: {name}\n".encode(), 4


def call(changes, room):
    return b'{"op":"kevent","pid":1,"fd":9,"changes":[' + b",".join(changes) + b'],"room":%d}\n' % room


def adds(count):
    return [b'{"ident":%d,"filter":"USER","flags":["ADD"],"fflags":16777216}' % it for it in range(count)]


def event(ident):
    return b'{"data":0,"fflags":0,"filter":"USER","flags":[],"ident":%d,"udata":0}' % ident


def rows():
    """Yields the name, the input and the wanted stdout, stderr and status of each row."""
    yield "line-of-just-the-limit-in-blanks", HEADER + b" " * LINE + b"\n", *fault(2, "Json")
    yield "line-over-the-limit-in-blanks", HEADER + b" " * (LINE + 1) + b"\n", *fault(2, "TooLong")
    header = HEADER.rstrip()
    empty = report(b'{"calls":0,"events":0,"records":0}')
    yield "header-of-just-the-limit", header.ljust(LINE) + b"\n", empty, b"", 0
    yield "header-over-the-limit", header.ljust(LINE + 1) + b"\n", *fault(1, "TooLong")
    yield "last-line-over-the-limit", HEADER + b" " * (LINE + 1), *fault(2, "TooLong")
    yield "bad-line-before-one-over-the-limit", HEADER + b"[\n" + b" " * (LINE + 1), *fault(2, "Json")
    known = b'{"op":"proc","pid":1}'.ljust(LINE)
    yield "record-of-just-the-limit", HEADER + known + b"\n", report(b'{"calls":0,"events":0,"records":1}'), b"", 0
    yield "record-over-the-limit", HEADER + known + b" \n", *fault(2, "TooLong")
    yield "deep-nesting", HEADER + b"[" * LINE, *fault(2, "Json")

    nobody = b'{"op":"kqueue","pid":7,"fd":1}\n'
    lines = [b'{"at":%d,"impossible":"NoProcess"}' % at for at in range(1, RECORDS + 1)]
    whole = report(*lines, b'{"calls":0,"events":0,"records":%d}' % RECORDS)
    yield "as-many-records-as-the-limit", HEADER + nobody * RECORDS, whole, b"", 0
    yield "one-line-too-many", HEADER + nobody * RECORDS + b"\n", *fault(RECORDS + 2, "TooManyRecords")
    tick = b'{"op":"clock","ns":0}\n'
    still = report(b'{"calls":0,"events":0,"records":%d}' % RECORDS)
    yield "as-many-clock-records-as-the-limit", HEADER + tick * RECORDS, still, b"", 0
    yield "line-over-both-limits", HEADER + tick * RECORDS + b" " * (LINE + 1), *fault(RECORDS + 2, "TooLong")
    yield "one-clock-record-too-many", HEADER + tick * (RECORDS + 1), *fault(RECORDS + 2, "TooManyRecords")
    yield "last-record-bad", HEADER + nobody * (RECORDS - 1) + b"\n" + nobody, *fault(RECORDS + 1, "Json")
    apart = nobody * 1500 + b"[\n" + nobody * 3000 + b"{}\n" + nobody * 3000
    yield "two-bad-lines-far-apart", HEADER + apart, *fault(1502, "Json")

    most = report(b'{"at":3,"events":[]}', b'{"at":4,"events":[' + b",".join(map(event, range(1024))) + b"]}")
    last = b'{"calls":2,"events":1024,"records":4}'
    yield "as-many-changes-as-the-limit", OPENING + call(adds(1024), 0) + call([], 65536), most + report(last), b"", 0
    too_many = b'{"at":3,"impossible":"TooMany"}'
    nothing = report(too_many, b'{"at":4,"events":[]}', b'{"calls":1,"events":0,"records":4}')
    yield "one-change-too-many", OPENING + call(adds(1025), 0) + call([], 65536), nothing, b"", 0
    same = [b'{"ident":1,"filter":"USER","flags":["ADD"]}'] * 1025
    counts = b'{"calls":0,"events":0,"records":3}'
    yield "one-change-too-many-of-one-kevent", OPENING + call(same, 1), report(too_many, counts), b"", 0

    yield "input-over-the-limit", bytes(INPUT + 1), b"", b"kqsim: cannot read the trace\n", 3
    yield "input-of-just-the-limit", bytes(INPUT), *fault(1, "TooLong")
