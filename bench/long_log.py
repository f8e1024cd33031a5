"""Times a hub whose log gets long: see long_log.sh. Usage: long_log.py PROGRAM TEXT LENGTH.. [--file FILE]

TEXT is how many bytes the text of each row has, at most 127. Fills a hub of t1(a key, b) by pushes of one row each, and times at each length the last thousand pushes, and two hundred pulls of ten
entries at drawn places of the log, in blocks of fifty; the least block counts. It prints a line a length, and at the end the memory
of the hub and the bytes of its rows and entries.
"""

import os
import random
import subprocess
import sys
import time

BLOCK = 50
PUSHES = 1000
PULLS = 200
# What a row and an entry have beside the text: a row's key and its values; the header of a changeset, and the change.
KEY, VALUES, CHANGE = 9, 11, 20


def push(number, text):
    """The push of a row of its own onto a log of so many entries."""
    head = b"0100000007%016x%016x%08x540201007431001200" % (number + 1, number, CHANGE + text)
    return head + b"01%016x03%02x" % (number, text) + b"76" * text + b"\n"


def pull(first):
    """A pull of ten entries."""
    return b"02%016x0000000a\n" % first


class Hub:
    def __init__(self, program, words):
        self.process = subprocess.Popen([program, "hub", *words, "t1:10"], stdin=subprocess.PIPE, stdout=subprocess.PIPE)

    def ask(self, lines, begin):
        """Asks a block of requests, each of whose answers has to begin so, and tells the seconds that it took."""
        started = time.perf_counter()
        self.process.stdin.write(b"".join(lines))
        self.process.stdin.flush()
        for _ in lines:
            answer = self.process.stdout.readline()
            if not answer.startswith(begin):
                sys.exit("WRONG: %r" % answer[:80])
        return time.perf_counter() - started

    def memory(self):
        with open("/proc/%d/status" % self.process.pid) as status:
            return next(int(line.split()[1]) for line in status if line.startswith("VmRSS:")) * 1024

    def close(self):
        self.process.stdin.close()
        self.process.wait()


def main(words):
    file = []
    if "--file" in words:
        file = words[words.index("--file"):]
        words = words[:words.index("--file")]
    program, text, lengths = words[0], int(words[1]), [int(word) for word in words[2:]]
    hub = Hub(program, file)
    empty = hub.memory()
    draw = random.Random(7)
    count, first = 0, None
    for length in lengths:
        pushes, pulls = [], []
        while count < length:
            took = hub.ask([push(number, text) for number in range(count, count + BLOCK)], b"11")
            count += BLOCK
            if count > length - PUSHES:
                pushes.append(took)
        for _ in range(PULLS // BLOCK):
            pulls.append(hub.ask([pull(draw.randrange(length - 10)) for _ in range(BLOCK)], b"14"))
        found = [1e6 * min(times) / BLOCK for times in (pushes, pulls)]
        first = first or found
        print("%d entries: a push %.1f us, a pull of ten %.1f us; of the first: %.2f, %.2f"
              % (length, *found, found[0] / first[0], found[1] / first[1]), flush=True)
    if not file:
        taken = hub.memory() - empty
        held = KEY + VALUES + text + CHANGE + text
        print("memory of %d entries of one row with a text of %d bytes: %d bytes each, %.2f of the bytes of rows and entries"
              % (count, text, taken / count, taken / count / held))
    hub.close()


if __name__ == "__main__":
    main(sys.argv[1:])
