"""The traces of the benchmark. Each is an endless list of lines behind the header, of which `write` takes the first.
Those that want version 2 of the format say so."""
import itertools

TRIGGER = 16777216
POLL_ROOM = 4
QUIET_ROOM = 1024
CHANGES = 1000
NOTE_WRITE = 2
NOTE_NSECONDS = 8
AT_A_MOMENT = NOTE_NSECONDS | 16
NOTE_TRACK, NOTE_EXEC = 1, 536870912
SIGNALS = 64
MILLISECOND = 1_000_000


# the members of each kind of record besides `op`; all but those below, `ignore` and `changes` are whole numbers from 0
MEMBERS = {
    "proc": ["pid"],
    "fork": ["pid", "child"],
    "exit": ["pid", "status"],
    "kqueue": ["pid", "fd"],
    "dup": ["pid", "fd", "to"],
    "close": ["pid", "fd"],
    "socket": ["pid", "fd", "rcv", "snd"],
    "listen": ["pid", "fd", "backlog"],
    "arrive": ["pid", "fd"],
    "accept": ["pid", "fd", "to", "rcv", "snd"],
    "connect": ["pid", "fd"],
    "rx": ["pid", "fd", "n"],
    "tx": ["pid", "fd", "n"],
    "shut": ["pid", "fd", "side", "error"],
    "lowat": ["pid", "fd", "side", "n"],
    "pipe": ["pid", "rfd", "wfd", "cap"],
    "read": ["pid", "fd", "n"],
    "write": ["pid", "fd", "n"],
    "exec": ["pid"],
    "sigset": ["pid", "sig", "ignore"],
    "sig": ["pid", "sig"],
    "file": ["file", "size"],
    "open": ["pid", "fd", "file", "mode"],
    "seek": ["pid", "fd", "offset"],
    "truncate": ["file", "size"],
    "note": ["file", "note"],
    "clock": ["ns"],
    "kevent": ["pid", "fd", "changes", "room"],
}
# the members whose values are words, and those that have a sign
WORDS = {
    "side": ["read", "write"],
    "mode": ["r", "w", "rw"],
    "note": ["attrib", "link", "rename", "delete", "revoke"],
}
SIGNED = ["size", "offset"]
# those of a change, in the order of canonical text
FILTERS = ["READ", "WRITE", "VNODE", "PROC", "SIGNAL", "TIMER", "USER"]
FILTERS += ["AIO", "LIO", "FS", "PROCDESC", "SENDFILE", "EMPTY"]
FLAGS = ["ADD", "DELETE", "ENABLE", "DISABLE", "ONESHOT", "CLEAR", "DISPATCH", "RECEIPT", "EOF", "ERROR"]


def record(op, *numbers):
    """One line: a kind of record and its members in their order, all of them numbers."""
    members = ",".join(f'"{name}":{number}' for name, number in zip(MEMBERS[op], numbers))
    return f'{{"op":"{op}",{members}}}\n'


OPENING = (record("proc", 1), record("kqueue", 1, 9))


def call(changes, room):
    return '{"op":"kevent","pid":1,"fd":9,"changes":[%s],"room":%d}\n' % (",".join(changes), room)


def change(ident, flags, fflags, filter="USER", data=None):
    names = ",".join(f'"{it}"' for it in flags)
    last = "" if data is None else f',"data":{data}'
    return '{"ident":%d,"filter":"%s","flags":[%s],"fflags":%d%s}' % (ident, filter, names, fflags, last)


def in_calls(changes):
    """Yields calls without room that make these changes, so many in each as are allowed."""
    for start in range(0, len(changes), CHANGES):
        yield call(changes[start : start + CHANGES], 0)


def calls_setup(kevents):
    """How many records register so many kevents, with those of the process and its kqueue."""
    return len(OPENING) - (-kevents // CHANGES)


def with_polls(lines, between=3, room=POLL_ROOM):
    """Yields these lines, and a poll after each three of them, or so many."""
    while True:
        yield from itertools.islice(lines, between)
        yield call([], room)


def write(path, lines, records, version=1):
    """Writes the first so many records of a trace."""
    with open(path, "w", encoding="ascii") as file:
        file.write('{"kqsim":%d}\n' % version)
        file.writelines(itertools.islice(lines, records))


def level(ident):
    """Kevents that stay triggered, so each poll takes from the front of the queue and puts to its back."""
    return ["ADD"], []


def once(ident):
    """Kevents that a poll resets, disables or deletes, by turns, so the next trigger has to bring them back."""
    actions = ("CLEAR", "DISPATCH", "ONESHOT")
    back = ([], ["ENABLE"], ["ADD", "ONESHOT"])
    return ["ADD", actions[ident % 3]], back[ident % 3]


def users(kind, kevents):
    """Kevents are added, then triggered in turn; each fourth record is a poll."""
    yield from (*OPENING, *in_calls([change(it, kind(it)[0], 0) for it in range(kevents)]))
    yield from with_polls(itertools.cycle([call([change(it, kind(it)[1], TRIGGER)], 0) for it in range(kevents)]))


def turnover(kevents):
    """The oldest of so many kevents is deleted and a new one added, record by record."""
    yield from (*OPENING, *in_calls([change(it, ["ADD"], 0) for it in range(kevents)]))
    for oldest in itertools.count():
        yield call([change(oldest, ["DELETE"], 0), change(oldest + kevents, ["ADD"], 0)], 0)


def files(kevents):
    """One file after the other is written to, and a VNODE kevent with CLEAR watches each; each fourth record is a
    poll."""
    yield from OPENING
    numbers = range(10, 10 + kevents)
    for it in numbers:
        yield from (record("file", it, 0), '{"op":"open","pid":1,"fd":%d,"file":%d,"mode":"w"}\n' % (it, it))
    yield from in_calls([change(it, ["ADD", "CLEAR"], NOTE_WRITE, "VNODE") for it in numbers])
    yield from with_polls(itertools.cycle([record("write", 1, it, 1) for it in numbers]))


def files_setup(kevents):
    return 2 * kevents + calls_setup(kevents)


def signals(kevents):
    """Signals come by turns, each heard by a kevent, beside user kevents that nothing triggers; each fourth record is a
    poll."""
    heard = range(1, SIGNALS + 1)
    changes = [change(it, ["ADD"], 0, "SIGNAL") for it in heard]
    yield from (*OPENING, *in_calls(changes + [change(it, ["ADD"], 0) for it in range(kevents - SIGNALS)]))
    yield from with_polls(itertools.cycle([record("sig", 1, it) for it in heard]))


def timers(count, period, longer, step, fflags=NOTE_NSECONDS):
    """The clock goes on by `step` ns a turn; so many timers have periods from `period` ns on, each `longer` ns longer
    than the last. With AT_A_MOMENT, in version 2, these are moments. A call that asks for nothing stands behind each
    step."""
    changes = [change(it, ["ADD"], fflags, "TIMER", period + it * longer) for it in range(count)]
    yield from (*OPENING, *in_calls(changes))
    for number in itertools.count(1):
        yield from (record("clock", number * step), call([], 0))


def moments(count, longer, step):
    """So many timers at a moment, in version 2. In each turn all are added again, with moments of which each is `longer`
    ns later than the last, and the clock goes on by `step` ns, over all of them."""
    yield from OPENING
    for turn in itertools.count():
        first = turn * step + 1
        yield from in_calls([change(it, ["ADD"], AT_A_MOMENT, "TIMER", first + it * longer) for it in range(count)])
        yield record("clock", first - 1 + step)


def wheel(count):
    """The clock goes on by a millisecond a record, and so many timers have periods of as many milliseconds and more, so
    that about every second step rings one; each fourth record is a poll."""
    yield from itertools.islice(timers(count, count * MILLISECOND, MILLISECOND, MILLISECOND), calls_setup(count))
    yield from with_polls(record("clock", it * MILLISECOND) for it in itertools.count(1))


def on(pid, kqueue, room, *changes):
    """A kevent call with changes to READ."""
    spelled = ",".join(f'{{"ident":{fd},"filter":"READ","flags":["{flag}"]}}' for flag, fd in changes)
    return f'{{"op":"kevent","pid":{pid},"fd":{kqueue},"changes":[{spelled}],"room":{room}}}\n'


def server(connections):
    """One process, one kqueue and so many connections open at a time. In each turn the oldest is served and closed,
    and its number goes to the next that comes, as open(2) gives the lowest that is free."""
    kqueue, listening, first = 3, 4, 5
    yield from (record("proc", 1), record("kqueue", 1, kqueue), record("socket", 1, listening, 65536, 65536))
    yield from (record("listen", 1, listening, 128), on(1, kqueue, 0, ("ADD", listening)))
    for fd in range(first, first + connections):
        yield from (record("arrive", 1, listening), record("accept", 1, listening, fd, 65536, 65536))
        yield on(1, kqueue, 0, ("ADD", fd))
    oldest = 0
    while True:
        fd = first + oldest
        yield from (record("rx", 1, fd, 100), on(1, kqueue, POLL_ROOM), record("read", 1, fd, 100))
        yield from (record("write", 1, fd, 200), record("tx", 1, fd, 200), record("close", 1, fd))
        yield from (record("arrive", 1, listening), record("accept", 1, listening, fd, 65536, 65536))
        yield on(1, kqueue, 0, ("ADD", fd))
        oldest = (oldest + 7919) % connections


def forks(live):
    """So many processes at a time, each with a kqueue on its end of a pipe from the first and on a socket that all
    share. In each turn the oldest exits, and the first starts another and writes to it; the socket receives."""
    kqueue, shared, sockets, writer = 3, 4, 5, 100
    yield from (record("proc", 1), record("kqueue", 1, kqueue), record("socket", 1, shared, 65536, 65536))
    yield from (record("connect", 1, shared), on(1, kqueue, 0, ("ADD", shared)))
    child = 1
    while True:
        child += 1
        slot = child % live
        if child > live + 1:
            yield from (record("exit", child - live, 0), on(1, kqueue, POLL_ROOM), record("close", 1, writer + slot))
        yield from (record("pipe", 1, sockets, writer + slot, 65536), record("fork", 1, child))
        yield from (record("close", 1, sockets), record("close", child, writer + slot), record("kqueue", child, kqueue))
        yield from (on(child, kqueue, 0, ("ADD", sockets)), record("write", 1, writer + slot, 10))
        yield from (on(child, kqueue, POLL_ROOM), record("read", child, sockets, 10), record("rx", 1, shared, 1))


def tree(fflags):
    """One process after the other is forked, each by the one of half its number, so that all descend from the first,
    which a kqueue watches with these notes. Each thousandth record is a poll with room for all that came."""
    yield from (*OPENING, call([change(1, ["ADD"], fflags, "PROC")], 0))
    yield from with_polls((record("fork", it // 2, it) for it in itertools.count(2)), CHANGES - 1, CHANGES)


def crowd(live):
    """So many processes, each with a kqueue on a socket of its own; each receives, polls and reads in turn, and at
    times one exits and another comes."""
    kqueue, own = 3, 4
    def come(pid):
        yield from (record("proc", pid), record("kqueue", pid, kqueue), record("socket", pid, own, 65536, 65536))
        yield from (record("connect", pid, own), on(pid, kqueue, 0, ("ADD", own)))
    pids = list(range(1, live + 1))
    for pid in pids:
        yield from come(pid)
    newest, turn = live, 0
    while True:
        pid = pids[turn % live]
        yield from (record("rx", pid, own, 10), on(pid, kqueue, POLL_ROOM), record("read", pid, own, 10))
        if turn % 10 == 9:
            newest += 1
            yield record("exit", pid, 0)
            pids[turn % live] = newest
            yield from come(newest)
        turn += 1


def herd(count):
    """So many processes, all forked from one, each with a kqueue that watches the listening socket which they share. Each
    connection that arrives is told to all of them; one polls, accepts it and closes it."""
    kqueue, shared, own = 3, 4, 5
    yield from (record("proc", 1), record("socket", 1, shared, 65536, 65536), record("listen", 1, shared, 128))
    pids = range(2, count + 2)
    for pid in pids:
        yield from (record("fork", 1, pid), record("kqueue", pid, kqueue), on(pid, kqueue, 0, ("ADD", shared)))
    for pid in itertools.cycle(pids):
        yield from (record("arrive", 1, shared), on(pid, kqueue, POLL_ROOM))
        yield from (record("accept", pid, shared, own, 65536, 65536), record("close", pid, own))


def churn():
    """One process after the other makes a kqueue with a timer, waits a millisecond, polls and exits."""
    kqueue, timer = 3, change(1, ["ADD"], 0, "TIMER", 1)
    for pid in itertools.count(1):
        yield from (record("proc", pid), record("kqueue", pid, kqueue))
        yield f'{{"op":"kevent","pid":{pid},"fd":{kqueue},"changes":[{timer}],"room":0}}\n'
        yield from (record("clock", pid * MILLISECOND), on(pid, kqueue, POLL_ROOM), record("exit", pid, 0))


def loops(count):
    """So many processes, each with a kqueue on a socket of its own and a timer of a second and more. One after the other
    receives, polls and reads, and after each four of them the clock goes on by a millisecond."""
    kqueue, own = 3, 4
    for pid in range(1, count + 1):
        yield from (record("proc", pid), record("kqueue", pid, kqueue), record("socket", pid, own, 65536, 65536))
        yield from (record("connect", pid, own), on(pid, kqueue, 0, ("ADD", own)))
        timer = change(0, ["ADD"], 0, "TIMER", 1000 + pid)
        yield f'{{"op":"kevent","pid":{pid},"fd":{kqueue},"changes":[{timer}],"room":0}}\n'
    for turn in itertools.count():
        pid = turn % count + 1
        yield from (record("rx", pid, own, 10), on(pid, kqueue, POLL_ROOM), record("read", pid, own, 10))
        if turn % 4 == 3:
            yield record("clock", (turn // 4 + 1) * MILLISECOND)


def spelled(number, name):
    """The value of a member of record `number`, as JSON."""
    turn = number // len(MEMBERS)
    if name in WORDS:
        return f'"{WORDS[name][turn % len(WORDS[name])]}"'
    if name == "ignore":
        return "true" if turn % 2 else "false"
    if name in SIGNED:
        return str(number * 7919 - 2**20)
    return "[]" if name == "changes" else str(number * 7919 % 2**32)


def each_kind():
    """Each kind of record in turn, for what reads and writes traces: few of them are possible."""
    kinds = list(MEMBERS)
    for number in itertools.count():
        op = kinds[number % len(kinds)]
        members = ",".join(f'"{it}":{spelled(number, it)}' for it in MEMBERS[op])
        yield f'{{"op":"{op}",{members}}}\n'


def quiet_polls():
    """One kqueue without kevents, and polls that have room for many events and return none."""
    yield from OPENING
    yield from itertools.repeat(call([], QUIET_ROOM))


def processes(count):
    """So many processes with a kqueue each, by turns: each adds a kevent of its own, triggers it again and again, and
    polls after every third trigger."""
    pids = range(1, count + 1)
    for pid in pids:
        yield record("proc", pid)
        yield record("kqueue", pid, 9)
    for number in itertools.count():
        pid, turn = number % count + 1, number // count
        made = call([], POLL_ROOM) if turn % 4 == 3 else call([change(turn % 8, ["ADD", "CLEAR"], TRIGGER)], 0)
        yield made.replace('"pid":1,', f'"pid":{pid},')
