"""Times a table that gets columns: see wider.sh. Usage: wider.py PROGRAM FOLDER ROWS LATER

Fills a hub of t1(a key, b) with so many rows, in memory and on a file, and gives the table a column, three times. Beside it SQLite's ALTER
TABLE ADD COLUMN on a table of these rows, and an UPDATE that sets the column in every row, in one transaction. Then a replica's file of
these rows takes such an entry. Then pushes and pulls of a hub with LATER rows, and edits of a replica, on twelve columns: ten of them that
the table got one by one, beside a table that had them from the start. The least of the turns counts.
"""

import os
import sqlite3
import subprocess
import sys
import time

TURNS = 3
AT_ONCE = 10000
BLOCKS, BLOCK = 40, 50
COLUMNS = 12
EDITS = 100000
EDITS_ON_FILE = 1000
MARKS = {False: "1" + "0" * (COLUMNS - 1), True: "10"}


def text_of(row):
    return b"%016d" % row


def push(number, base, rows, columns=2):
    """The push of rows with a text of 16 bytes and, behind it, so many columns less two of NULL."""
    changes = "".join("120001%016x0310%s%s" % (row, text_of(row).hex(), "05" * (columns - 2)) for row in rows)
    changeset = "54%02x01%s743100%s" % (columns, "00" * (columns - 1), changes)
    return "0100000007%016x%016x%08x%s" % (number, base, len(changeset) // 2, changeset)


def widen(base, width):
    return "04%016x%016x%08x000000027431" % (base, base, width)


def given(version, width):
    """The answer of one entry, which gives the column."""
    return "14%016x0000000101ffffffff%016x00000006%08x7431" % (version, version, width)


class Lines:
    """A run of the program that answers lines as they come."""

    def __init__(self, program, *words, behind=1):
        self.process = subprocess.Popen([program, *words], stdin=subprocess.PIPE, stdout=subprocess.PIPE, text=True)
        self.behind = behind

    def ask(self, lines, begin):
        """Seconds in which lines were answered, each by one that begins so."""
        started = time.perf_counter()
        self.process.stdin.write("".join(line + "\n" for line in lines))
        self.process.stdin.flush()
        for _ in lines:
            answer = [self.process.stdout.readline() for _ in range(self.behind)][0]
            if not answer.startswith(begin):
                sys.exit("WRONG: %r" % answer[:80])
        return time.perf_counter() - started

    def peak(self):
        with open("/proc/%d/status" % self.process.pid) as status:
            return next(int(line.split()[1]) for line in status if line.startswith("VmHWM:")) / 1024

    def close(self):
        self.process.stdin.close()
        self.process.wait()


def fill(hub, rows, columns=2, base=0):
    """Pushes these rows, and answers the version behind them."""
    for first in range(0, len(rows), AT_ONCE):
        hub.ask([push(base + 1, base, rows[first : first + AT_ONCE], columns)], "1100000007")
        base += 1
    return base


def of_sqlite(path, rows, journal):
    """Seconds of each turn by SQLite."""
    file = sqlite3.connect(path, isolation_level=None)
    file.execute("PRAGMA journal_mode = " + journal)
    file.execute("PRAGMA synchronous = FULL")
    file.execute("CREATE TABLE t1 (a INTEGER PRIMARY KEY, b TEXT)")
    file.execute("BEGIN")
    file.executemany("INSERT INTO t1 VALUES (?, ?)", ((row, text_of(row).decode()) for row in range(rows)))
    file.execute("COMMIT")
    took = []
    for turn in range(TURNS):
        started = time.perf_counter()
        file.execute("BEGIN")
        file.execute("ALTER TABLE t1 ADD COLUMN c%d" % turn)
        file.execute("UPDATE t1 SET c%d = 0" % turn)
        file.execute("COMMIT")
        took.append(time.perf_counter() - started)
    file.close()
    return took


def of_hub(program, words, rows):
    """Seconds of each turn at a hub; its most memory before, and behind them, in MiB; and the answers that hand on what it has."""
    hub = Lines(program, "hub", *words, "t1:10")
    base = fill(hub, range(rows))
    before = hub.peak()
    took = [hub.ask([widen(base + turn, 3 + turn)], "11ffffffff") for turn in range(TURNS)]
    behind = hub.peak()
    changeset = "5405010000000074310009000100000000000000000310%s050505" % text_of(0).hex()
    hub.ask(["0100000008%016x%016x%08x%s" % (1, base + TURNS, len(changeset) // 2, changeset)], "1100000008")
    hub.close()
    return took, before, behind


def of_replica(program, path, rows):
    """Seconds of each turn at a replica's file."""
    replica = Lines(program, "node", "--follow", path, "9", "t1:10", behind=2)
    version = 0
    for first in range(0, rows, AT_ONCE):
        changes = push(1, 0, range(first, min(first + AT_ONCE, rows)))[50:]
        replica.ask(["answer 14%016x000000010000000007%016x%08x%s -" % (version, version + 1, len(changes) // 2, changes)], "taken 1 ")
        version += 1
    took = [replica.ask(["answer %s -" % given(version + turn, 3 + turn)], "taken 1 ") for turn in range(TURNS)]
    replica.close()
    return took


def say(what, ours, theirs, beside="SQLite"):
    print("%s, milliseconds: %.1f / %s %.1f = %.2f" % (what, 1e3 * min(ours), beside, 1e3 * min(theirs), min(ours) / min(theirs)), flush=True)


def widening(program, folder, rows):
    took, before, behind = of_hub(program, [], rows)
    say("a column for %d rows of a hub in memory" % rows, took, of_sqlite(":memory:", rows, "MEMORY"), "SQLite in memory")
    print("  its most memory: %.0f MiB before, %.0f MiB behind three of them" % (before, behind))
    mine, before, behind = of_hub(program, ["--file", os.path.join(folder, "hub")], rows)
    for journal in "WAL", "DELETE":
        say("a column for %d rows of a hub on a file" % rows, mine, of_sqlite(os.path.join(folder, "sqlite" + journal), rows, journal), "SQLite, " + journal)
    print("  its most memory: %.0f MiB before, %.0f MiB behind three of them" % (before, behind))
    mine = of_replica(program, os.path.join(folder, "replica"), rows)
    say("a column for %d rows of a replica's file" % rows, mine, of_sqlite(os.path.join(folder, "sqlite"), rows, "WAL"), "SQLite, WAL")


def wide_hub(program, words, is_given, rows):
    """A hub of twelve columns and so many rows, and its version. It has the columns from the start, or was given ten of them behind half of the rows."""
    hub = Lines(program, "hub", *words, "t1:" + MARKS[is_given])
    if not is_given:
        return hub, fill(hub, range(rows), COLUMNS)
    base = fill(hub, range(rows // 2))
    for width in range(3, COLUMNS + 1):
        hub.ask([widen(base, width)], "11ffffffff")
        base += 1
    return hub, fill(hub, range(rows // 2, rows), COLUMNS, base)


def pushes_and_pulls(program, folder, rows):
    for where in "in memory", "on a file":
        hubs = []
        for is_given in False, True:
            words = [] if where == "in memory" else ["--file", os.path.join(folder, "later%d" % is_given)]
            hubs.append(list(wide_hub(program, words, is_given, rows)))
        pushes, pulls = ([], []), ([], [])
        for block in range(BLOCKS):
            for side, (hub, base) in enumerate(hubs):
                keys = range(rows + block * BLOCK, rows + (block + 1) * BLOCK)
                pushes[side].append(hub.ask([push(base + at + 1, base + at, [key], COLUMNS) for at, key in enumerate(keys)], "1100000007"))
                hubs[side][1] = base + BLOCK
            for side, (hub, base) in enumerate(hubs):
                pulls[side].append(hub.ask(["02%016x0000000a" % (base - 10 - at % 10) for at in range(BLOCK)], "14"))
        for hub, _ in hubs:
            hub.close()
        say("%d pushes %s, twelve columns of which ten were given" % (BLOCK, where), pushes[True], pushes[False], "none given")
        say("%d pulls of ten entries %s" % (BLOCK, where), pulls[True], pulls[False], "none given")


def script(is_given, edits):
    """A world's lines: the columns, if they are given, and then edits of twelve."""
    lines = []
    if is_given:
        for base in range(COLUMNS - 2):
            lines += ["widen 1 %d t1 %d" % (base, base + 3), "deliver %d -" % (2 * base)]
        sent = 2 * (COLUMNS - 2)
        lines += ["pull 0 100", "deliver %d -" % sent, "deliver %d -" % (sent + 1)]
    return lines + inserts(edits)


def inserts(edits):
    """As many INSERTs as UPDATEs of these rows."""
    nulls = " null" * (COLUMNS - 2)
    return (["edit 0 insert t1 %d t=v1%s" % (row, nulls) for row in range(edits // 2)]
            + ["edit 0 update t1 %d - t=v2%s" % (row, " -" * (COLUMNS - 3)) for row in range(edits // 2)])


def run_of(program, words, lines, wrong):
    """Seconds of a run that works these lines, none of which is told so."""
    text = "".join(line + "\n" for line in lines)
    started = time.perf_counter()
    ran = subprocess.run([program, *words], input=text, capture_output=True, text=True)
    took = time.perf_counter() - started
    if ran.returncode != 0 or wrong in ran.stdout:
        sys.exit("WRONG: status %d, %s" % (ran.returncode, ran.stdout[:80]))
    return took


def edits(program, folder):
    took = ([], [])
    for _ in range(TURNS):
        for is_given in False, True:
            took[is_given].append(run_of(program, ["world", "1", "t1:" + MARKS[is_given]], script(is_given, EDITS), "refused"))
    say("a run of %d edits in memory" % EDITS, took[True], took[False], "none given")
    took = ([], [])
    for turn in range(TURNS):
        for is_given in False, True:
            words = ["node", os.path.join(folder, "edits%d-%d" % (is_given, turn)), "9", "t1:" + MARKS[is_given]]
            if is_given:
                run_of(program, words, ["answer %s -" % given(base, base + 3) for base in range(COLUMNS - 2)], "fault")
            took[is_given].append(run_of(program, words, [line.replace("edit 0 ", "edit ") for line in inserts(EDITS_ON_FILE)], "refused"))
    say("a run of %d edits on a file" % EDITS_ON_FILE, took[True], took[False], "none given")


def main(program, folder, rows, later):
    print("SQLite: " + sqlite3.sqlite_version)
    widening(program, folder, int(rows))
    pushes_and_pulls(program, folder, int(later))
    edits(program, folder)


main(*sys.argv[1:5])
