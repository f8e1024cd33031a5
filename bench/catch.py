"""Times a replica that was away, catching up: see catch.sh. Usage: catch.py PROGRAM FOLDER ENTRIES CHANGES ROWS TEXT

Fills a hub of t1(a key, b) with so many entries of so many changes each, over so many rows, each of a text of TEXT bytes, at most 127: a row's first
change is its INSERT, and each further one the UPDATE of its text. Then a replica that is at none of them asks once what they do together, and is told;
and another one asks for entries by the hundred. It prints the bytes of the answers, the time that the hub takes, and that of a replica in a file in
the folder, less that of opening it: each time the least of three.
"""

import os
import random
import subprocess
import sys
import time

TURNS = 3
HUNDRED = 100
HEADER = "54020100743100"


class Rows:
    """Rows that entries change."""

    def __init__(self, rows, text):
        self.draw = random.Random(7)
        self.rows = rows
        self.text = text
        self.texts = {}

    def value(self, number):
        return "03%02x" % self.text + ("%08x" % number).encode().ljust(self.text, b"v")[:self.text].hex()

    def changeset(self, number, changes):
        """A changeset of so many changes of rows that differ, in the order of their keys."""
        found = HEADER
        for key in sorted(self.draw.sample(range(self.rows), changes)):
            old, new = self.texts.get(key), self.value(number)
            self.texts[key] = new
            if old is None:
                found += "120001%016x%s" % (key, new)
            else:
                found += "170001%016x%s00%s" % (key, old, new)
        return found


def push(number, changeset):
    return "0100000007%016x%016x%08x%s\n" % (number + 1, number, len(changeset) // 2, changeset)


class Hub:
    def __init__(self, program):
        self.process = subprocess.Popen([program, "hub", "t1:10"], stdin=subprocess.PIPE, stdout=subprocess.PIPE, text=True)

    def ask(self, line, begin):
        """The answer, which has to begin so."""
        self.process.stdin.write(line)
        self.process.stdin.flush()
        answer = self.process.stdout.readline().rstrip("\n")
        if not answer.startswith(begin):
            sys.exit("WRONG: %r" % answer[:80])
        return answer

    def close(self):
        self.process.stdin.close()
        self.process.wait()


def node(program, path, lines):
    """Seconds that a new replica in a file takes for these lines, each of which has to take entries; and where it stands then."""
    for end in ("", "-wal", "-shm"):
        if os.path.exists(path + end):
            os.remove(path + end)
    begun = time.perf_counter()
    ran = subprocess.run([program, "node", path, "9", "t1:10"], input="".join(lines) + "dump\n", capture_output=True, text=True)
    took = time.perf_counter() - begun
    printed = ran.stdout.split("\n")
    if ran.returncode != 0 or any(not line.startswith("taken ") for line in printed[:len(lines)]):
        sys.exit("WRONG: status %d, %r" % (ran.returncode, ran.stdout[:80]))
    return took, printed[len(lines):]


def least(times):
    return min(times)


def main(words):
    program, folder, (entries, changes, rows, text) = words[0], words[1], [int(word) for word in words[2:]]
    drawn = Rows(rows, text)
    hub = Hub(program)
    for number in range(entries):
        hub.ask(push(number, drawn.changeset(number, changes)), "11")
    caught, pulled, catches, pulls = [], [], [], []
    for _ in range(TURNS):
        begun = time.perf_counter()
        caught = [hub.ask("0300000009%016xffffffff\n" % 0, "1500000009%016x%016x" % (0, entries))]
        catches.append(time.perf_counter() - begun)
        begun = time.perf_counter()
        pulled = [hub.ask("02%016x%08x\n" % (first, HUNDRED), "14") for first in range(0, entries, HUNDRED)]
        pulls.append(time.perf_counter() - begun)
    hub.close()
    path = os.path.join(folder, "replica")
    opened = least([node(program, path, [])[0] for _ in range(TURNS)])
    took, stood = [], []
    for answers in (caught, pulled):
        lines = ["answer %s -\n" % answer for answer in answers]
        turns = [node(program, path, lines) for _ in range(TURNS)]
        took.append(least([seconds for seconds, _ in turns]) - opened)
        stood.append(turns[0][1])
    if stood[0] != stood[1]:
        sys.exit("WRONG: the rows differ")
    sizes = [sum(len(answer) for answer in answers) // 2 for answers in (caught, pulled)]
    print("%d entries of %d changes over %d rows: told at once / by the hundred" % (entries, changes, rows))
    print("  bytes of answers: %d / %d = %.4f" % (sizes[0], sizes[1], sizes[0] / sizes[1]))
    print("  the hub, milliseconds: %.1f / %.1f = %.2f" % (1e3 * least(catches), 1e3 * least(pulls), least(catches) / least(pulls)))
    print("  the replica, milliseconds: %.1f / %.1f = %.4f" % (1e3 * took[0], 1e3 * took[1], took[0] / took[1]))


main(sys.argv[1:])
