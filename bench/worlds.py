"""Drawn worlds. Each seed makes a script of events: edits of few rows, pushes, pushes sent again, pulls and catches, columns that tables
get, deliveries of any message that was ever sent (so messages are lost, come twice, and out of order), restarts, and all wishes. What is
asked for is told one by one or at once. Then comes a closing part, round by round: pushes that are under way are sent again, each replica
pulls, and what is pending is pushed, one replica after another, until all are at rest. While a script is drawn, a model of the hub and the
replicas (below, by docs/FORMATS.md alone) makes its events. The program plays the script, and has to print line by line what the model came
to. At the end the hub and each replica have to show the same rows, at one version, with nothing pending and nothing under way; and in no
run was a push a conflict or an entry a bad one.
Usage: worlds.py PROGRAM SEEDS [FIRST]"""

import multiprocessing
import os
import random
import subprocess
import sys
import time

EVENTS = 200
TABLES = ["t1:10", "t2:101"]
WISHES = "kts"
MOST = 4294967295
WIDEN_ORIGIN = 4294967295
MOST_COLUMNS = 2000
# Entries are told one by one, or what they do together is.
ASKS = ["pull", "catch"]


class Unequal(Exception):
    pass


# ---- the model: rows are words of values, a state has rows by table and key, and a change leads from a row or none to another or none


def encoded(word):
    """The bytes of a value, by which keys are ordered."""
    if word == "null":
        return b"\5"
    kind, text = word[:2], word[2:]
    if kind == "x=":
        return b"\4" + bytes([len(text) // 2]) + bytes.fromhex(text)
    if kind == "t=":
        spelled = bytearray()
        while text:
            size = 3 if text[0] == "%" else 1
            spelled += bytes.fromhex(text[1:3]) if size == 3 else text[0].encode()
            text = text[size:]
        return b"\3" + bytes([len(spelled)]) + bytes(spelled)
    return b"\1" + int(word).to_bytes(8, "big", signed=True)


def in_order(places):
    """Tables in their order, and of each its keys in that of their bytes."""
    return sorted(places, key=lambda place: (place[0], b"".join(encoded(word) for word in place[1])))


def net(before, after):
    """What leads from a state to another: a pair of rows, or none, at each place."""
    return {place: (before.get(place), after.get(place)) for place in before.keys() | after.keys() if before.get(place) != after.get(place)}


def applied(state, changes):
    """The rows behind changes; nothing where one of them isn't defined there."""
    after = dict(state)
    for place, (old, new) in changes.items():
        there = after.get(place)
        if old is not None and new is not None and there is not None:
            its = change_of(old, new)
            if any(value is not None and own != was for value, own, was in zip(its, there, old)):
                return None
            new = tuple(own if value is None else value for value, own in zip(its, there))
        elif there != old:
            return None
        if new is None:
            del after[place]
        else:
            after[place] = new
    return after


def change_of(old, new):
    """The new values of the columns that an UPDATE modifies."""
    return tuple(None if was == its else its for was, its in zip(old, new))


def widened(state, table, width):
    return {place: row + ("null",) * (width - len(row)) if place[0] == table else row for place, row in state.items()}


class Stopped(Exception):
    pass


class Picker:
    """Wishes of a line; behind the last one it takes."""

    def __init__(self, word):
        self.wishes = "" if word == "-" else word
        self.at = 0

    def next(self):
        wish = self.wishes[self.at] if self.at < len(self.wishes) else "t"
        self.at += 1
        if wish == "s":
            raise Stopped
        return wish


def merged(before, after, own, picker):
    """Own rows over `before`, merged with what leads from there to `after`."""
    mine = dict(own)
    changes = net(before, after)
    for place in in_order(changes):
        old, new = changes[place]
        there = own.get(place)
        left = new
        if there != old:
            left = met(old, new, there, picker)
        if left is None:
            mine.pop(place, None)
        else:
            mine[place] = left
    return mine


def met(old, new, there, picker):
    """What is left at a place where the own row is another than the log's: another's change, the own row, and a wish where they clash."""
    if old is None or new is None:
        if there is None:
            picker.next()
            return there
        return there if picker.next() == "k" else new
    if there is None:
        picker.next()
        return there
    its = change_of(old, new)
    taken = tuple(own if value is None else value for value, own in zip(its, there))
    if all(value is None or own == was for value, own, was in zip(its, there, old)):
        return taken
    covers = all(value is None or own != was for value, own, was in zip(its, there, old))
    return there if picker.next() == "k" and covers else taken


class Hub:
    def __init__(self, widths):
        self.log = []
        self.states = [{}]
        self.widths = [dict(widths)]

    def newest(self):
        return len(self.log)

    def append(self, entry, state, widths):
        self.log.append(entry)
        self.states.append(state)
        self.widths.append(widths)
        return ("accepted", entry[1], entry[2], self.newest())

    def recalled(self, base, entry):
        if self.log[base] == entry:
            return ("accepted", entry[1], entry[2], base + 1)
        return ("stale", self.newest())

    def push(self, origin, number, base, widths, changes):
        there = self.widths[min(base, self.newest())]
        if any(widths[place[0]] != there[place[0]] for place in changes):
            return ("refused", 31)
        if base > self.newest():
            return ("refused", 40)
        entry = ("push", origin, number, changes)
        if base < self.newest():
            return self.recalled(base, entry)
        after = applied(self.states[-1], changes)
        if after is None:
            return ("refused", 41)
        return self.append(entry, after, self.widths[-1])

    def widen(self, number, base, table, width):
        if base > self.newest():
            return ("refused", 40)
        entry = ("widen", WIDEN_ORIGIN, number, table, width)
        if base < self.newest():
            return self.recalled(base, entry)
        present = self.widths[-1]
        if table not in present or not present[table] < width <= MOST_COLUMNS:
            return ("refused", 46)
        return self.append(entry, widened(self.states[-1], table, width), {**present, table: width})

    def entries(self, first, limit):
        return ("entries", first, min(limit, self.newest() - first))

    def catch(self, origin, first, limit):
        count = min(limit, self.newest() - first)
        run = 0
        while run < count and self.log[first + run][1] not in (origin, WIDEN_ORIGIN):
            run += 1
        if count > 0 and run == 0:
            return ("entries", first, 1)
        return ("merged", origin, first, first + run)

    def serve(self, request):
        return getattr(self, request[0])(*request[1:])


class Replica:
    def __init__(self, hub, number):
        self.hub, self.id = hub, number
        self.version = self.number = 0
        self.flight = None
        self.rows = {}

    def widths(self):
        return self.hub.widths[self.version]

    def base(self):
        state = self.hub.states[self.version]
        return state if self.flight is None else applied(state, self.flight)

    def pending(self):
        return net(self.base(), self.rows)

    def edit(self, words):
        kind, table = words[0], words[1]
        if table not in KEYS:
            return "refused NoTable"
        values = tuple(words[2:])
        keys = KEYS[table]
        if len(values) != (len(keys) if kind == "delete" else self.widths()[table]):
            return "refused Width"
        key = values if kind == "delete" else tuple(values[at] for at in keys)
        if "null" in key:
            return "refused NullKey"
        there = self.rows.get((table, key))
        if kind == "insert" and there is not None:
            return "refused Exists"
        if kind != "insert" and there is None:
            return "refused Missing"
        if kind == "delete":
            del self.rows[(table, key)]
        elif kind == "insert":
            self.rows[(table, key)] = values
        else:
            self.rows[(table, key)] = tuple(own if value == "-" else value for value, own in zip(values, there))
        return "ok"

    def push(self):
        pending = self.pending()
        if not pending:
            return "refused Nothing"
        if self.flight is not None:
            return "refused InFlight"
        self.number += 1
        self.flight = pending
        return self.resend()

    def resend(self):
        if self.flight is None:
            return "refused Nothing"
        return ("push", self.id, self.number, self.version, dict(self.widths()), self.flight)

    def take(self, following, picker):
        """Moves to a version, by the three-way merge over the log's rows."""
        self.rows = merged(self.hub.states[self.version], self.hub.states[following], self.rows, picker)
        self.version = following
        self.flight = None

    def take_entry(self, picker):
        entry = self.hub.log[self.version]
        if entry[0] == "widen":
            self.rows = widened(self.rows, entry[3], entry[4])
            self.version += 1
            self.flight = None
        elif self.flight is not None and entry == ("push", self.id, self.number, self.flight):
            self.version += 1
            self.flight = None
        else:
            self.take(self.version + 1, picker)

    def hear(self, answer, wishes):
        kind = answer[0]
        if kind == "accepted":
            if self.flight is None or answer[1:] != (self.id, self.number, self.version + 1):
                return "ignored"
            self.version += 1
            self.flight = None
            return "accepted %d" % self.version
        if kind == "stale":
            return "stale %d" % answer[1]
        if kind == "refused":
            return "hub refused %d" % answer[1]
        picker = Picker(wishes)
        begun = self.version
        try:
            if kind == "entries":
                _, first, count = answer
                while first <= self.version < first + count:
                    self.take_entry(picker)
            else:
                _, origin, first, following = answer
                if (origin, first) != (self.id, self.version):
                    return "ignored"
                if following > first:
                    self.take(following, picker)
        except Stopped:
            return "stopped %d version %d" % (self.version - begun, self.version)
        return "taken %d version %d" % (self.version - begun, self.version)


NAMES = [table.split(":")[0] for table in TABLES]
KEYS = {table.split(":")[0]: [at for at, mark in enumerate(table.split(":")[1]) if mark == "1"] for table in TABLES}
WIDTHS = {table.split(":")[0]: len(table.split(":")[1]) for table in TABLES}


class World:
    """The model of a world: its hub, its replicas, and all messages that were ever sent."""

    def __init__(self, replicas):
        self.hub = Hub(WIDTHS)
        self.replicas = [Replica(self.hub, number) for number in range(replicas)]
        self.messages = []
        self.lines = []
        self.told = []

    def sends(self, message):
        self.messages.append(message)
        return "sent %d" % (len(self.messages) - 1)

    def does(self, line):
        """Makes an event, and keeps what it came to."""
        self.lines.append(line)
        self.told.append(self.comes_to(line.split(" ")))

    def comes_to(self, words):
        verb = words[0]
        if verb == "deliver":
            return self.delivers(int(words[1]), words[2])
        if verb == "widen":
            return self.sends(("orders", None, ("widen", int(words[1]), int(words[2]), words[3], int(words[4]))))
        replica = self.replicas[int(words[1])]
        if verb == "edit":
            return replica.edit(words[2:])
        if verb == "restart":
            return "ok"
        if verb == "pull":
            return self.sends(("asks", replica, ("entries", replica.version, int(words[2]))))
        if verb == "catch":
            return self.sends(("asks", replica, ("catch", replica.id, replica.version, int(words[2]))))
        request = replica.push() if verb == "push" else replica.resend()
        return request if isinstance(request, str) else self.sends(("asks", replica, request))

    def delivers(self, which, wishes):
        if which >= len(self.messages):
            return "refused NoMessage"
        kind, replica, body = self.messages[which]
        if kind in ("asks", "orders"):
            return self.sends(("tells" if kind == "asks" else "replies", replica, self.hub.serve(body)))
        return "ignored" if kind == "replies" else replica.hear(body, wishes)

    def dump(self):
        lines = ["hub %d" % self.hub.newest()] + rows_of(self.hub.states[-1])
        for replica in self.replicas:
            counts = (replica.id, replica.version, len(replica.pending()), len(replica.flight or {}))
            lines += ["replica %d version %d pending %d flight %d" % counts] + rows_of(replica.rows)
        return lines


def rows_of(state):
    return ["row %s %s" % (place[0], " ".join(state[place])) for place in in_order(state)]


# ---- events, drawn


def value(draw):
    kind = draw.randrange(6)
    if kind == 0:
        return "null"
    if kind == 1:
        return "x=" + "%02x" % draw.randrange(3)
    if kind == 2:
        return "t=" + draw.choice(["a", "b", "%C3%A9", ""])
    return str(draw.randrange(-1, 2))


def edit(draw, replica):
    """An edit of one of few rows, so that replicas clash. Now and then it can't be made, also since it has another width."""
    table = draw.choice(NAMES)
    keys = KEYS[table]
    width = replica.widths()[table]
    if draw.randrange(20) == 0:
        width = max(width + draw.choice([-1, 1]), keys[-1] + 1)
    kind = draw.choice(["insert"] * 4 + ["update"] * 2 + ["delete"] * 2)
    key = {at: str(draw.randrange(4)) if at == 0 else "t=" + draw.choice("xy") for at in keys}
    if kind == "delete":
        values = list(key.values())
    else:
        values = [key[at] if at in key else value(draw) for at in range(width)]
    if kind == "update":
        values = ["-" if at not in key and draw.randrange(3) == 0 else word for at, word in enumerate(values)]
    return "edit %d %s %s %s" % (replica.id, kind, table, " ".join(values))


def widen(draw, hub):
    """A table's column or two more, mostly on the newest version. Now and then it can't be had."""
    table = draw.choice(NAMES) if draw.randrange(10) else "t3"
    width = hub.widths[-1].get(table, 2) + draw.choice([1, 1, 1, 2, 2, 0, -1])
    base = max(hub.newest() + draw.choice([0, 0, 0, 0, 1, -1]), 0)
    return "widen %d %d %s %d" % (draw.randrange(1, 4), base, table, width)


def wishes(draw):
    return "".join(draw.choice(WISHES) for _ in range(draw.randrange(6))) or "-"


def draw_event(draw, world):
    replica = draw.choice(world.replicas)
    kind = draw.randrange(40)
    if kind < 13:
        return edit(draw, replica)
    if kind < 17:
        return "push %d" % replica.id
    if kind < 19:
        return "resend %d" % replica.id
    if kind < 23:
        return "%s %d %d" % (draw.choice(ASKS), replica.id, draw.choice([1, 2, 4096]))
    if kind < 25:
        return widen(draw, world.hub)
    if kind < 39:
        # One of the newest, or any at all; now and then one that isn't there.
        sent = len(world.messages)
        which = sent - draw.choice([0] + [1, 2, 3, 4] * 5) if draw.randrange(3) else draw.randrange(sent + 1)
        return "deliver %d %s" % (max(which, 0), wishes(draw))
    return "restart %d" % replica.id


def asks(world, line, wishes):
    """A question, its delivery, and that of its answer."""
    world.does(line)
    if world.told[-1].startswith("sent"):
        world.does("deliver %d -" % (len(world.messages) - 1))
        world.does("deliver %d %s" % (len(world.messages) - 1, wishes))


def close(draw, world):
    """Until all are at rest, at the newest version. A catch ends before an own entry and before one that gives columns, and behind it."""
    for _ in range(200):
        behind = False
        for replica in world.replicas:
            if replica.flight is not None:
                asks(world, "resend %d" % replica.id, "-")
            if replica.version < world.hub.newest():
                behind = True
                asks(world, "%s %d %d" % (draw.choice(ASKS), replica.id, MOST), "".join(draw.choice("kt") for _ in range(draw.randrange(8))) or "-")
        if behind or any(replica.flight is not None for replica in world.replicas):
            continue
        pending = [replica for replica in world.replicas if replica.pending()]
        if not pending:
            return
        asks(world, "push %d" % pending[0].id, "-")
    raise Unequal("the model never came to rest")


# ---- the program's run, and what it has to be


def play(program, replicas, lines):
    text = "".join(line + "\n" for line in lines)
    ran = subprocess.run([program, "world", str(replicas)] + TABLES, input=text.encode(), capture_output=True, timeout=60)
    if ran.returncode != 0:
        raise Unequal("status %d, %s" % (ran.returncode, ran.stderr.decode()))
    printed = ran.stdout.decode().split("\n")
    if printed.pop() != "" or len(printed) <= len(lines):
        raise Unequal("what was printed has another form")
    for line in printed[: len(lines)]:
        if line == "hub refused 41" or line.startswith("fault "):
            raise Unequal("an event came to `%s`" % line)
    return printed


def look(world, printed):
    """Each line is the model's; and the hub and each replica show the same rows, at rest."""
    wanted = world.told + world.dump()
    for at, (line, its) in enumerate(zip(printed, wanted)):
        if line != its:
            raise Unequal("line %d, `%s`, came to `%s`, not `%s`" % (at + 1, (world.lines + ["the dump"] * len(wanted))[at], line, its))
    if len(printed) != len(wanted):
        raise Unequal("%d lines were printed, not %d" % (len(printed), len(wanted)))
    parts = []
    for line in printed[len(world.lines) :]:
        if line.startswith(("hub ", "replica ")):
            parts.append([line])
        else:
            parts[-1].append(line)
    for number, part in enumerate(parts[1:]):
        if part[0] != "replica %d version %s pending 0 flight 0" % (number, parts[0][0].split()[1]):
            raise Unequal("replica %d isn't at rest" % number)
        if part[1:] != parts[0][1:]:
            raise Unequal("replica %d has other rows than the hub" % number)


def world(job):
    program, seed = job
    draw = random.Random(seed)
    drawn = World(draw.randrange(2, 5))
    for _ in range(EVENTS):
        drawn.does(draw_event(draw, drawn))
    told = list(drawn.told)
    try:
        close(draw, drawn)
        wider = sum(1 for entry in drawn.hub.log if entry[0] == "widen")
        look(drawn, play(program, len(drawn.replicas), drawn.lines))
        return seed, None, len(drawn.lines), told, drawn.hub.newest(), wider
    except Unequal as fault:
        with open("%s.%d" % (os.environ.get("BENCH_KEPT", "world"), seed), "w") as kept:
            kept.write("".join(line + "\n" for line in drawn.lines))
        return seed, str(fault), len(drawn.lines), [], 0, 0


def main():
    program, seeds = sys.argv[1], int(sys.argv[2])
    first = int(sys.argv[3]) if len(sys.argv) > 3 else 0
    begun = time.time()
    events = entries = columns = 0
    counts = {}
    failed = 0
    with multiprocessing.Pool() as pool:
        jobs = [(program, seed) for seed in range(first, first + seeds)]
        for seed, fault, length, told, newest, wider in pool.imap_unordered(world, jobs, 8):
            if fault is not None:
                print("seed %d: %s" % (seed, fault))
                failed += 1
            events += length
            entries += newest
            columns += wider
            for line in told:
                words = line.split(" ")
                word = " ".join(words[:2]) if words[0] in ("refused", "hub") else words[0]
                counts[word] = counts.get(word, 0) + 1
    print("worlds: %d, events: %d, entries of the hub: %d, of which %d gave columns, %.1f s" % (seeds, events, entries, columns, time.time() - begun))
    print("of the drawn events: " + ", ".join("%s %d" % (word, counts[word]) for word in sorted(counts)))
    if failed:
        print("%d of %d worlds failed" % (failed, seeds))
        sys.exit(1)
    print("each printed what the model came to, and ended with the same rows at the hub and at each replica")


if __name__ == "__main__":
    main()
