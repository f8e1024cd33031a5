"""Stops of the built program. A hub and replicas stand on files. Each round gives one of them a batch of lines, whole, and in most rounds kills it
(SIGKILL) at a drawn moment: before its first call, in one, between two, or not at all. Requests and answers that it had printed are
kept, to be handed on later, also twice, late or never. Some requests give the table a column. Then its file is looked at, on a copy:

- it shows what it shows on a copy of the file from before the batch behind as many lines as were told, or one more, worked without a stop: rows, version,
  number, what is under way and what is pending, or the log. Of an answer of several entries it may also be behind some of them, in order.
  What SQLite finds in its tables is the same too: each row, pending change, value and entry;
- what was told is what those lines are told without a stop.

At the end all is delivered, without stops, until all are at rest. Then each replica has the same rows, and the hub; each row that was told
to be inserted, and that nobody else touched, is there; the log has no two pushes of one origin and one number; no push was answered as a
conflict; and SQLite finds each file whole.

Before that, a column is given at the hub, and taken at a replica, on files of many rows, with a stop at each call that writes to a file.
The file is as it was or as the column leaves it, whole. And each of these calls fails once: what is told is then Device, and the file as it
was, or it was done. A kill leaves to the file what the system was told to write: this shows processes that stop, and no power that fails.
Usage: stops.py PROGRAM ROUNDS [SEED [REFUSE_WRITES.so]]"""

import glob
import os
import random
import shutil
import signal
import sqlite3
import subprocess
import sys
import tempfile
import time

TABLES = ["t1:10"]
NODES = 3
LIMIT = 20
PATIENCE = 60
# The origin of entries that give columns, and how many columns the table gets at most.
GIVER = 4294967295
MOST_COLUMNS = 9
PARTS = ["rows ORDER BY tab, key", "pending ORDER BY tab, key", "meta ORDER BY name", "log ORDER BY version"]


class Wrong(Exception):
    pass


def copy(path, to):
    """The file, and what lies beside it: its log."""
    for old in glob.glob(to + "*"):
        os.remove(old)
    for part in glob.glob(path + "*"):
        shutil.copyfile(part, to + part[len(path):])


def numbers(text, *widths):
    """The numbers of so many bytes at the front of hex, and the rest."""
    found = []
    for width in widths:
        found.append(int(text[:2 * width], 16))
        text = text[2 * width:]
    return found, text


def entries_of(answer):
    """The version of the first entry of an answer, and its entries in hex; none of any other answer."""
    (tag,), rest = numbers(answer, 1)
    if tag != 0x14:
        return None
    (first, count), rest = numbers(rest, 8, 4)
    entries = []
    for _ in range(count):
        size = 2 * (1 + 4 + 8 + 4 + int(rest[26:34], 16))
        entries.append(rest[:size])
        rest = rest[size:]
    return first, entries


def of_entries(first, entries):
    return "14%016x%08x%s" % (first, len(entries), "".join(entries))


def widen(number, base, width):
    """The request that t1 gets so many columns."""
    return "04%016x%016x%08x000000027431" % (number, base, width)


def found_in(path):
    """What SQLite finds in the tables of a file, which is a copy."""
    file = sqlite3.connect(path)
    try:
        return [file.execute("SELECT * FROM " + part).fetchall() for part in PARTS]
    finally:
        file.close()


def width_in(path):
    """How many columns the table has in a replica's file, which is a copy."""
    return dict(found_in(path)[2])["catalog"][1]


class Run:
    """Runs the program on lines, and counts."""

    def __init__(self, program):
        self.program = program
        self.runs = 0
        self.stops = 0
        self.inside = 0

    def start(self, words, lines):
        self.runs += 1
        # Without a buffer, so that what is read line by line and what is left go together.
        process = subprocess.Popen([self.program, *words], bufsize=0, stdin=subprocess.PIPE, stdout=subprocess.PIPE, stderr=subprocess.PIPE)
        try:
            process.stdin.write("".join(line + "\n" for line in lines).encode())
            process.stdin.close()
        except BrokenPipeError:
            pass
        process.stdin = None
        return process

    def whole(self, words, lines):
        """What is printed where it isn't stopped."""
        process = self.start(words, lines)
        out, told = process.communicate(timeout=PATIENCE)
        if process.returncode != 0 or told:
            raise Wrong("%s ended with %s and told %r" % (" ".join(words), process.returncode, told))
        return out.decode().split("\n")[:-1]

    def stopped(self, words, lines, behind, delay):
        """What was printed, in whole lines, before it was killed some time behind so many of them; and whether it was."""
        process = self.start(words, lines)
        first = b"".join(process.stdout.readline() for _ in range(behind))
        time.sleep(delay)
        process.send_signal(signal.SIGKILL)
        out, told = process.communicate(timeout=PATIENCE)
        out = first + out
        if process.returncode not in (0, -signal.SIGKILL) or told:
            raise Wrong("%s ended with %s and told %r" % (" ".join(words), process.returncode, told))
        killed = process.returncode != 0
        self.stops += killed
        return out.decode().split("\n")[:-1], killed


class Party:
    """A hub or a replica on a file."""

    def __init__(self, run, folder, name):
        self.run = run
        self.path = os.path.join(folder, name)
        self.before = os.path.join(folder, "before-" + name)
        self.copy = os.path.join(folder, "copy-" + name)
        self.pace = 0.0

    def shown(self, path, lines):
        """All that a copy of a file shows behind lines, and what is found in it; and what these are told."""
        copy(path, self.copy)
        told = self.run.whole(self.words(self.copy), lines)
        found = found_in(self.copy)
        return (self.run.whole(self.words(self.copy), self.asks()), found), told

    def works(self, draw, lines):
        """Works lines, and stops on the way or not. Returns what was told of the first lines."""
        copy(self.path, self.before)
        if draw.random() < 0.25:
            begun = time.time()
            told = self.run.whole(self.words(self.path), lines)
            self.pace = 0.7 * self.pace + 0.3 * (time.time() - begun)
            return told
        behind = draw.randrange(len(lines)) if draw.random() < 0.7 else 0
        pace = self.pace / len(lines) if behind else 1.3 * self.pace
        told, killed = self.run.stopped(self.words(self.path), lines, behind, draw.random() * pace)
        now, _ = self.shown(self.path, [])
        for behind in self.fronts(lines, len(told)):
            shown, its = self.shown(self.before, behind)
            if shown == now and its[:len(told)] == told:
                self.run.inside += killed and len(behind) > len(told)
                return told
        raise Wrong("%s was stopped behind %s of the lines %s, and shows\n%s" % (self.path, len(told), lines, "\n".join(now[0])))

    def is_whole(self):
        """Whether SQLite finds the file whole, on a copy."""
        copy(self.path, self.copy)
        found = sqlite3.connect(self.copy)
        try:
            return found.execute("PRAGMA integrity_check").fetchall() == [("ok",)]
        finally:
            found.close()

    def fronts(self, lines, told):
        """The lines that may have been worked where so many were told."""
        yield lines[:told]
        if told == len(lines):
            return
        yield from self.parts(lines[:told], lines[told])
        yield lines[:told + 1]

    def parts(self, before, line):
        return []


class Hub(Party):
    def __init__(self, run, folder, name="hub"):
        super().__init__(run, folder, name)
        self.newest = 0
        self.width = 2
        self.asked = 0

    def words(self, path):
        return ["hub", "--file", path, *TABLES]

    def asks(self):
        return ["02%016x%08x" % (0, 4096)]

    def widens(self, draw):
        """A request for a column, mostly on the newest version that was told."""
        self.asked += 1
        return widen(self.asked, max(self.newest + draw.choice([0, 0, 0, 1, -1]), 0), min(self.width + draw.choice([1, 1, 2]), MOST_COLUMNS))

    def heard(self, request, answer):
        """Keeps what an answer tells of the log."""
        if answer[:2] != "11":
            return
        (_, origin, _, version), _ = numbers(answer, 1, 4, 8, 8)
        self.newest = max(self.newest, version)
        if origin == GIVER:
            self.width = max(self.width, int(request[34:42], 16))


class Node(Party):
    def __init__(self, run, folder, number):
        super().__init__(run, folder, "node%s" % number)
        self.number = number
        self.rows = 0

    def words(self, path):
        return ["node", path, str(self.number), *TABLES]

    def asks(self):
        # What is under way is printed by `resend`, what is pending by `push` or, where a push is under way, counted by `dump`.
        return ["dump", "resend", "push", "dump"]

    def parts(self, before, line):
        """An answer of several entries is taken entry by entry."""
        words = line.split(" ")
        if words[0] != "answer":
            return
        told = entries_of(words[1])
        if told is None:
            return
        for count in range(1, len(told[1])):
            yield before + ["answer %s %s" % (of_entries(told[0], told[1][:count]), words[2])]

    def width(self):
        """How many columns the table has here."""
        copy(self.path, self.copy)
        return width_in(self.copy)

    def edit(self, draw, width):
        values = " ".join(["t=" + draw.choice("abc")] + [draw.choice(["null", "5", "t=x"]) for _ in range(width - 2)])
        if draw.random() < 0.6:
            self.rows += 1
            return "edit insert t1 %s %s" % (1000 * (self.number + 1) + self.rows, values)
        key = draw.randrange(4)
        kind = draw.randrange(3)
        if kind == 0:
            return "edit insert t1 %s %s" % (key, values)
        if kind == 1:
            fields = " ".join(draw.choice(["-", value]) for value in values.split(" "))
            return "edit update t1 %s %s" % (key, fields)
        return "edit delete t1 %s" % key


class World:
    def __init__(self, run, folder, seed):
        self.run = run
        self.draw = random.Random(seed)
        self.hub = Hub(run, folder, "hub")
        self.nodes = [Node(run, folder, number) for number in range(NODES)]
        self.requests = []
        self.answers = {number: [] for number in range(NODES)}
        self.sure = set()
        for party in [self.hub, *self.nodes]:
            begun = time.time()
            run.whole(party.words(party.path), [])
            party.pace = time.time() - begun

    def any_of(self, messages):
        """A message that was sent: mostly a late one. None is taken away."""
        if self.draw.random() < 0.7:
            return messages[-1 - self.draw.randrange(min(3, len(messages)))]
        return self.draw.choice(messages)

    def node_round(self):
        node = self.draw.choice(self.nodes)
        width = node.width()
        lines = []
        for _ in range(1 + self.draw.randrange(8)):
            kind = self.draw.randrange(10)
            if kind < 4:
                lines.append(node.edit(self.draw, width))
            elif kind < 6:
                lines.append("push")
            elif kind < 7:
                lines.append("resend")
            elif kind < 8 or not self.answers[node.number]:
                lines.append("%s %s" % (self.draw.choice(["pull", "catch"]), LIMIT))
            else:
                wishes = self.draw.choice(["-", "k", "t", "kt", "tk"])
                lines.append("answer %s %s" % (self.any_of(self.answers[node.number]), wishes))
        self.heard(node, lines, node.works(self.draw, lines))

    def heard(self, node, lines, told):
        """Keeps what was printed: requests, and rows of keys that are the node's own."""
        for line, text in zip(lines, told):
            words = line.split(" ")
            if words[0] in ("push", "resend", "pull", "catch") and not text.startswith("refused"):
                self.requests.append((node.number, text))
            if line.startswith("edit insert t1 ") and text == "ok" and int(words[3]) >= 1000:
                self.sure.add("row t1 %s %s" % (words[3], words[4]))

    def hub_round(self):
        if self.draw.random() < 0.3:
            self.requests.append((None, self.hub.widens(self.draw)))
        if not self.requests:
            return
        sent = [self.any_of(self.requests) for _ in range(1 + self.draw.randrange(5))]
        told = self.hub.works(self.draw, [text for _, text in sent])
        for (number, text), answer in zip(sent, told):
            if answer == "1329":
                raise Wrong("a push was answered as a conflict")
            self.hub.heard(text, answer)
            if number is not None:
                self.answers[number].append(answer)

    def rests(self):
        """Delivers all, without a stop, until nothing is pending and nothing under way anywhere."""
        for _ in range(200):
            moved = False
            for node in self.nodes:
                words, hub = node.words(node.path), self.hub.words(self.hub.path)
                for ask in ("catch 4096", "pull 4096", "resend", "push"):
                    text = node.run.whole(words, [ask])[0]
                    if text.startswith("refused"):
                        continue
                    answer = self.hub.run.whole(hub, [text])[0]
                    if answer == "1329":
                        raise Wrong("a push was answered as a conflict")
                    said = node.run.whole(words, ["answer %s -" % answer])[0]
                    moved = moved or not said.startswith("taken 0 ")
            if not moved:
                return
        raise Wrong("they never came to rest")

    def ends(self):
        self.rests()
        dumps = [node.run.whole(node.words(node.path), ["dump"]) for node in self.nodes]
        for node, dump in zip(self.nodes, dumps):
            if dump[0].split(" ", 2)[2] != dumps[0][0].split(" ", 2)[2] or dump[1:] != dumps[0][1:]:
                raise Wrong("replicas 0 and %s differ:\n%s\n\n%s" % (node.number, "\n".join(dumps[0]), "\n".join(dump)))
            if " pending 0 flight 0" not in dump[0]:
                raise Wrong("replica %s is not at rest: %s" % (node.number, dump[0]))
        lost = self.sure - {" ".join(row.split(" ")[:4]) for row in dumps[0][1:]}
        if lost:
            raise Wrong("these rows were told to be inserted, and are gone: %s" % sorted(lost))
        for party in [self.hub, *self.nodes]:
            if not party.is_whole():
                raise Wrong("SQLite doesn't find %s whole" % party.path)
        _, entries = entries_of(self.hub.run.whole(self.hub.words(self.hub.path), self.hub.asks())[0])
        pushes = [entry[2:26] for entry in entries if entry[:2] == "00"]
        if len(set(pushes)) != len(pushes):
            raise Wrong("a push counts twice in the log: %s" % pushes)
        copy(self.hub.path, self.hub.copy)
        rows = found_in(self.hub.copy)[0]
        for node in self.nodes:
            copy(node.path, node.copy)
            if found_in(node.copy)[0] != rows:
                raise Wrong("replica %s and the hub differ" % node.number)
        return len(entries), len(entries) - len(pushes), len(self.sure)


# ---- a column, with a stop at each call that writes, and each of these failing


class Giving:
    """A party that works one line, which gives its table a column, on a file that others made."""

    def __init__(self, run, party, library, device):
        self.run, self.party, self.library, self.device = run, party, library, device
        self.start = party.before
        self.before, _ = party.shown(self.start, [])

    def refused(self, name, number, line):
        """How a run ends in which this call is stopped at, or fails; what it told, and how many calls there were where it made no such call."""
        copy(self.start, self.party.path)
        reader, writer = os.pipe()
        process = subprocess.Popen([self.run.program, *self.party.words(self.party.path)], stdin=subprocess.PIPE, stdout=subprocess.PIPE, stderr=subprocess.PIPE,
                                   env=dict(os.environ, LD_PRELOAD=self.library, **{name: str(number)}), close_fds=False, preexec_fn=lambda: os.dup2(writer, 9))
        os.close(writer)
        out, error = process.communicate((line + "\n").encode(), timeout=PATIENCE)
        self.run.runs += 1
        with os.fdopen(reader) as it:
            made = it.read()
        return process.returncode, out.decode().split("\n")[:-1], error.decode().strip(), int(made) if made else None

    def each(self, line):
        after, whole = self.party.shown(self.start, [line])
        if after == self.before:
            raise Wrong("%s gave no column" % line)
        _, _, _, calls = self.refused("STOP", 10**9, line)
        if not calls or calls < 3:
            raise Wrong("the program doesn't write by the C library")
        counts = [0, 0]
        for number in range(1, calls + 1):
            status, told, error, _ = self.refused("STOP", number, line)
            if status != -signal.SIGKILL or error or told not in ([], whole):
                raise Wrong("%s, stopped at call %s: status %s, told %s and %s" % (line, number, status, told, error))
            counts[self.at_end("%s, stopped at call %s" % (line, number), after, told)] += 1
        failed = 0
        for number in range(1, calls + 1):
            status, told, error, _ = self.refused("FAIL", number, line)
            if (status, error) == (0, "") and told == whole:
                left = [after]
            elif (status, told, error) in [(1, [], "sync: Device"), (0, self.device, "")]:
                # What had been written by then may be found all the same, as after a stop.
                left = [self.before, after]
                failed += 1
            else:
                raise Wrong("%s, call %s failed: status %s, told %s and %s" % (line, number, status, told, error))
            now = self.party.shown(self.party.path, [])[0]
            if now not in left:
                raise Wrong("%s, call %s failed: told %s and %s, and the file isn't what that says" % (line, number, told, error))
            again = self.party.shown(self.party.path, [line])
            if now == self.before and again != (after, whole):
                raise Wrong("%s, call %s failed: made again, it is told %s" % (line, number, again[1]))
        return calls, counts, failed

    def at_end(self, what, after, told):
        """Whether the file is as the line leaves it; else it is as it was."""
        if not self.party.is_whole():
            raise Wrong("%s: SQLite doesn't find the file whole" % what)
        now, _ = self.party.shown(self.party.path, [])
        if now == after:
            return 1
        if now == self.before and not told:
            return 0
        raise Wrong("%s: the file is neither as it was nor as it has to be" % what)


def give(run, folder, library):
    """A column for 400 rows: at a hub, and at a replica with 40 rows more under way, and 60 changes pending."""
    hub, node = Hub(run, folder, "giver"), Node(run, folder, 9)
    text = "t=" + "some%20text%20" * 3
    inserts = ["edit insert t1 %s %s%s" % (row, text, row) for row in range(400)]
    push = run.whole(node.words(node.before), inserts + ["push"])[-1]
    answer = run.whole(hub.words(hub.before), [push])[0]
    lines = ["answer %s -" % answer] + ["edit insert t1 %s %s" % (row, text) for row in range(400, 440)] + ["push"]
    lines += ["edit update t1 %s t=other" % row for row in range(0, 400, 10)] + ["edit delete t1 %s" % row for row in range(5, 440, 22)]
    run.whole(node.words(node.before), lines)
    asked = widen(1, 1, 3)
    at_hub = Giving(run, hub, library, ["132c"]).each(asked)
    copy(hub.before, hub.path)
    told = run.whole(hub.words(hub.path), [asked, "02%016x%08x" % (1, 1)])
    at_node = Giving(run, node, library, ["fault Device after 0"]).each("answer %s -" % told[1])
    for name, (calls, counts, failed) in ("hub", at_hub), ("replica", at_node):
        print("a column at a %s: stopped at each of %s calls that write, as before %s, as behind it %s; of these calls failing, %s were told Device"
              % (name, calls, *counts, failed))


def main():
    program, rounds = sys.argv[1], int(sys.argv[2])
    seed = int(sys.argv[3]) if len(sys.argv) > 3 else 1
    folder = tempfile.mkdtemp()
    run = Run(program)
    try:
        if len(sys.argv) > 4:
            give(run, folder, sys.argv[4])
        world = World(run, folder, seed)
        for _ in range(rounds):
            if world.draw.random() < 0.6:
                world.node_round()
            else:
                world.hub_round()
        entries, columns, rows = world.ends()
    except Wrong as wrong:
        kept = os.environ.get("BENCH_KEPT")
        if kept:
            shutil.rmtree(kept, ignore_errors=True)
            shutil.copytree(folder, kept)
        print("stops, seed %s: %s" % (seed, wrong), file=sys.stderr)
        sys.exit(1)
    finally:
        shutil.rmtree(folder, ignore_errors=True)
    print("stops: %s rounds, %s killed on the way, %s of these behind a call that was made and not told; %s entries, of which %s gave columns, %s rows all there"
          % (rounds, run.stops, run.inside, entries, columns, rows))


main()
