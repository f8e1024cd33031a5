"""Long worlds, timed: see world_speed.sh. Usage: world_speed.py PROGRAM EVENTS FOLDER_AND_NAME"""

import random
import subprocess
import sys
import time

REPLICAS = 10
ROWS = 1000
# So many pushes at most are spread over the events.
PUSHES = 4000


def script(path, events):
    """Edits by all replicas, pulls, and pushes that spread over the run; each message is delivered once, at once."""
    draw = random.Random(7)
    every = max(events // PUSHES, 20)
    sent = 0
    number = 0
    with open(path, "w") as lines:
        while number < events:
            replica = draw.randrange(REPLICAS)
            key = draw.randrange(ROWS)
            if number % every == 0:
                # A pull, and a push that is up to date.
                turn = ["pull %d 4096" % replica, "deliver %d -" % sent, "deliver %d -" % (sent + 1),
                        "edit %d insert t1 %d t=%d" % (replica, ROWS + number, number), "push %d" % replica,
                        "deliver %d -" % (sent + 2), "deliver %d -" % (sent + 3)]
                sent += 4
            else:
                turn = [draw.choice([
                    "edit %d insert t1 %d t=%d" % (replica, key, number),
                    "edit %d update t1 %d t=%d" % (replica, key, number),
                    "edit %d update t1 %d t=%d" % (replica, key, number),
                    "edit %d delete t1 %d" % (replica, key),
                ])]
            for line in turn[:events - number]:
                lines.write(line + "\n")
                number += 1


def timed(program, path):
    best = None
    for _ in range(2):
        with open(path) as lines, open(path + ".out", "w") as printed:
            begun = time.time()
            subprocess.run([program, "world", str(REPLICAS), "t1:10"], stdin=lines, stdout=printed, check=True)
            took = time.time() - begun
        best = took if best is None else min(best, took)
    return best


def main():
    program, events, path = sys.argv[1], int(sys.argv[2]), sys.argv[3]
    few = events // 10
    script(path + ".few", few)
    script(path + ".many", events)
    short, long = timed(program, path + ".few"), timed(program, path + ".many")
    print("%d events: %.2f s, %.0f a second" % (few, short, few / short))
    print("%d events: %.2f s, %.0f a second" % (events, long, events / long))
    print("an event of the long run beside one of the short: %.2f" % ((long / events) / (short / few)))


main()
