"""A small judge of recorded answers, for one kqueue with a short queue: it keeps every state that some choice of orders
leaves. And random traces for it, with answers that are altered.

It knows user events and READ on connected sockets, with CLEAR, ONESHOT and DISPATCH, and no errors.
"""
import itertools
import json

TRIGGER = 16777216
USERS, SOCKETS = (1, 2, 3), (4, 5)


class Knote:
    """One registered kevent. It never changes; `but` makes another one."""

    def __init__(self, flags, triggered=False, enabled=True, active=False):
        self.flags, self.triggered, self.enabled, self.active = flags, triggered, enabled, active

    def but(self, **changed):
        return Knote(**{**vars(self), **changed})

    def state(self):
        return self.flags, self.triggered, self.enabled, self.active


class State:
    """What a choice of orders leaves: the knotes by key. Those that are active and enabled wait, in any order."""

    def __init__(self, knotes):
        self.knotes = knotes

    def name(self):
        return tuple(sorted((key, knote.state()) for key, knote in self.knotes.items()))

    def but(self, key, knote):
        knotes = dict(self.knotes)
        knotes.pop(key, None)
        if knote:
            knotes[key] = knote
        return State(knotes)

    def event(self, key, bytes_at):
        """The event of a knote whose condition holds, else None."""
        filter_name, ident = key
        knote = self.knotes[key]
        if not (knote.triggered if filter_name == "USER" else bytes_at[ident]):
            return None
        data = 0 if filter_name == "USER" else bytes_at[ident]
        return {"ident": ident, "filter": filter_name, "flags": list(knote.flags), "fflags": 0, "data": data, "udata": 0}

    def looked(self, key, bytes_at):
        """A look at a knote that was told something."""
        if self.event(key, bytes_at) is None:
            return self
        return self.but(key, self.knotes[key].but(active=True))

    def changed(self, change, bytes_at):
        key = change["filter"], change["ident"]
        flags = set(change["flags"])
        knote = self.knotes.get(key)
        if "ADD" in flags:
            knote = knote or Knote(tuple(sorted(flags - {"ADD", "ENABLE"})))
        if not knote:
            return None
        if "DELETE" in flags:
            return self.but(key, None)
        if change.get("fflags", 0) & TRIGGER:
            knote = knote.but(triggered=True)
        if "ENABLE" in flags:
            knote = knote.but(enabled=True)
        return self.but(key, knote).looked(key, bytes_at)

    def returned(self, key):
        knote = self.knotes[key]
        if "ONESHOT" in knote.flags:
            return self.but(key, None)
        if "DISPATCH" in knote.flags:
            knote = knote.but(enabled=False, active=False)
        if "CLEAR" in knote.flags:
            knote = knote.but(active=False, triggered=False)
        return self.but(key, knote)

    def reads(self, room, bytes_at):
        """All that a call with this room can return, by its keys, and the state behind it."""
        waiting = [key for key, knote in self.knotes.items() if knote.active and knote.enabled]
        pending = [key for key in waiting if self.event(key, bytes_at)]
        idle = [key for key in waiting if key not in pending]
        if room == 0:
            yield {}, self
            return
        least = len(idle) if len(pending) < room else 0
        for keys in itertools.combinations(pending, min(room, len(pending))):
            for many in range(least, len(idle) + 1):
                for seen in itertools.combinations(idle, many):
                    after = self
                    for key in seen:
                        after = after.but(key, after.knotes[key].but(active=False))
                    for key in keys:
                        after = after.returned(key)
                    yield {key: self.event(key, bytes_at) for key in keys}, after


def told(states, ident, bytes_at):
    key = "READ", ident
    return [state.looked(key, bytes_at) if key in state.knotes else state for state in states]


def judged(records, answers):
    """The place of the first answer that no choice of orders gives, or None."""
    states, bytes_at = [State({})], dict.fromkeys(SOCKETS, 0)
    for place, record in enumerate(records, 1):
        if record["op"] in ("rx", "read"):
            bytes_at[record["fd"]] += record["n"] if record["op"] == "rx" else -record["n"]
            if record["op"] == "rx":
                states = told(states, record["fd"], bytes_at)
        if record["op"] != "kevent":
            continue
        for change in record["changes"]:
            states = [state.changed(change, bytes_at) for state in states]
        answer = answers.get(place)
        left = {}
        for state in states:
            for events, after in state.reads(record["room"], bytes_at):
                if answer is None or are_those(answer["events"], events):
                    left[after.name()] = after
        if not left:
            return place
        states = list(left.values())
    return None


def are_those(own, events):
    """Whether these are the events, each once, in any order."""
    keys = [(event["filter"], event["ident"]) for event in own]
    return len(own) == len(events) and set(keys) == set(events) and all(events[k] == e for k, e in zip(keys, own))


# ---- random traces


def records_of(random):
    """A trace: what a loop with some user events and sockets does. No knote with ONESHOT is changed without ADD."""
    records = [{"op": "proc", "pid": 1}, {"op": "kqueue", "pid": 1, "fd": 9}]
    for fd in SOCKETS:
        records.append({"op": "socket", "pid": 1, "fd": fd, "rcv": 100, "snd": 100})
        records.append({"op": "connect", "pid": 1, "fd": fd})
    kinds = {ident: random.choice(([], ["CLEAR"], ["ONESHOT"], ["DISPATCH"])) for ident in USERS + SOCKETS}
    bytes_at = dict.fromkeys(SOCKETS, 0)
    for _ in range(random.randint(6, 14)):
        fd = random.choice(SOCKETS)
        act = random.random()
        if act < 0.2 and bytes_at[fd] < 50:
            bytes_at[fd] += 5
            records.append({"op": "rx", "pid": 1, "fd": fd, "n": 5})
        elif act < 0.35 and bytes_at[fd]:
            records.append({"op": "read", "pid": 1, "fd": fd, "n": bytes_at[fd]})
            bytes_at[fd] = 0
        else:
            changes = [change_of(random, kinds) for _ in range(random.choice((0, 0, 1, 2)))]
            records.append({"op": "kevent", "pid": 1, "fd": 9, "changes": changes, "room": random.choice((0, 1, 1, 2, 8))})
    return records


def change_of(random, kinds):
    ident = random.choice(USERS + SOCKETS)
    flags = ["ADD", *kinds[ident], *(["ENABLE"] if "DISPATCH" in kinds[ident] else [])]
    if ident in SOCKETS:
        return {"ident": ident, "filter": "READ", "flags": flags}
    return {"ident": ident, "filter": "USER", "flags": flags, "fflags": TRIGGER}


def altered(random, answers):
    """The answers with one mistake, or another order, or without some lines."""
    made = json.loads(json.dumps(list(answers.values())))
    full = [row["events"] for row in made if row["events"]]
    for row in made:
        random.shuffle(row["events"])
    if full and random.random() < 0.7:
        events = random.choice(full)
        which = random.choice(("missing", "double", "member", "moved"))
        if which == "missing":
            events.pop()
        elif which == "double":
            events.append(dict(events[0]))
        elif which == "member":
            events[0][random.choice(("data", "udata"))] += 1
        else:
            random.choice(made)["events"].append(events.pop())
    kept = random.choice((1.0, 1.0, 0.8, 0.4))
    return {row["at"]: row for row in made if random.random() < kept}
