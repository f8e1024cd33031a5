"""Refuses the program `sync` allocations, one a run, where it works on a file (`node`, `node --follow`, `hub --file`) and where it plays a script (`world`).

A run ends with `sync: Memory` behind the texts of some lines, or the text of one line says that memory was refused, or the program did without. Then the
other lines are told what they are told without that line, and the file shows what they leave of it, by a run without a refusal on a copy; where the
run ended, what the lines leave that were told, or one more. A run makes some
thousands of allocations: each of the first is refused, and of the others one in so many that the runs of a command are at most MOST, or so many times that.

Usage: refuse_files.py SYNC REFUSE.so FOLDER [MOST]
"""
import os
import re
import shutil
import subprocess
import sys
from concurrent.futures import ThreadPoolExecutor

sync, library, folder = sys.argv[1:4]
most = int(sys.argv[4]) if len(sys.argv) > 4 else 240
FIRST = 60
TABLE = "t1:10"
INSERT = "54020100743100120001000000000000000103027631"
UPDATE = "540201007431001700010000000000000001030276310003027632"
# Another's insert of one row, and then of the row that is inserted here too.
TAKEN = "14000000000000000000000001000000000900000000000000010000001654020100743100120001000000000000000203027631"
CLASHES = "14000000000000000100000001000000000900000000000000020000001654020100743100120001000000000000000103027632"
# t1 gets a third column: the request on version 1, and the answer of the entry behind that version.
WIDEN = "040000000000000001000000000000000100000003000000027431"
WIDER = "1400000000000000010000000101ffffffff000000000000000100000006000000037431"
INSERT_WIDE = "54030100007431001200010000000000000002030161030162"


class Wrong(Exception):
    pass


def run(words, lines, refused=0):
    """The program's status, its lines but the empty ones, what it told of an error, and how many allocations it made where it didn't come to the refused one."""
    reader, writer = os.pipe()
    environment = dict(os.environ, REFUSE=str(refused), LD_PRELOAD=library) if refused else None
    told = subprocess.run([sync, *words], input="".join(f"{line}\n" for line in lines), capture_output=True, text=True, timeout=120, env=environment,
                          close_fds=False, preexec_fn=lambda: os.dup2(writer, 9))
    os.close(writer)
    with os.fdopen(reader) as it:
        made = it.read()
    return told.returncode, [line for line in told.stdout.splitlines() if line], told.stderr.strip(), int(made) if made else None


def copy(path, to):
    """The file, and what lies beside it: its log."""
    for end in ["", "-wal", "-shm", "-journal"]:
        if os.path.exists(to + end):
            os.remove(to + end)
        if os.path.exists(path + end):
            shutil.copyfile(path + end, to + end)


class Command:
    def __init__(self, name, words, begun, lines, looks, refused, times=1):
        """`words` have `@` in the place of the file, if there is one; it begins as `begun` leaves it, and is shown by `looks`."""
        self.name, self.words, self.lines, self.looks, self.refused, self.times = name, words, lines, looks, re.compile(refused), times
        self.start = f"{folder}/{name}.start"
        if looks:
            self.work(self.start, begun)
        copy(self.start, f"{folder}/{name}.whole")
        self.whole = self.work(f"{folder}/{name}.whole", lines)[1]
        copy(self.start, f"{folder}/{name}.counted")
        self.count = self.work(f"{folder}/{name}.counted", lines, 10**9)[3]

    def work(self, path, lines, refused=0):
        return run([path if word == "@" else word for word in self.words], lines, refused)

    def shown(self, path):
        return self.work(path, self.looks)[1] if self.looks else None

    def left(self, number, lines):
        """What is told, and what the file shows, where these lines are worked without a refusal."""
        path = f"{folder}/{self.name}.{number}.other"
        copy(self.start, path)
        told = self.work(path, lines)[1]
        return told, self.shown(path)

    def refuse(self, number):
        """What became of a run in which this allocation was refused."""
        path = f"{folder}/{self.name}.{number}"
        copy(self.start, path)
        status, told, error, made = self.work(path, self.lines, number)
        at = [place for place, line in enumerate(told) if self.refused.search(line)]
        if made is not None:
            return "not reached"
        if status == 1 and error == "sync: Memory" and told == self.whole[:len(told)]:
            # A line whose text there was no memory for may have been worked.
            became, fronts = "ended", [self.lines[:len(told)], self.lines[:len(told) + 1]]
        elif status == 0 and told == self.whole:
            became, fronts = "spared", [self.lines]
        elif status == 0 and len(at) == 1 and at[0] < len(self.lines):
            became, fronts = "told", [self.lines[:at[0]] + self.lines[at[0] + 1:]]
        else:
            raise Wrong(f"{self.name}, allocation {number}: status {status}, {error}, {told}")
        left = [self.left(number, lines) for lines in fronts]
        if became == "told" and left[0][0] != told[:at[0]] + told[at[0] + 1:]:
            raise Wrong(f"{self.name}, allocation {number}: the other lines are told otherwise: {told}, {left[0][0]}")
        if self.looks and self.shown(path) not in [shows for _, shows in left]:
            raise Wrong(f"{self.name}, allocation {number}: the file isn't what the lines that were made leave")
        for end in ["", ".other"]:
            for beside in ["", "-wal", "-shm", "-journal"]:
                if os.path.exists(path + end + beside):
                    os.remove(path + end + beside)
        return became

    def refuse_all(self):
        step = max(1, -(-(self.count - FIRST) // (self.times * most - FIRST)))
        numbers = [*range(1, min(FIRST, self.count) + 1), *range(FIRST + 1, self.count + 1, step)]
        with ThreadPoolExecutor(2) as pool:
            became = list(pool.map(self.refuse, numbers))
        if "told" not in became:
            raise Wrong(f"{self.name}: no line was told that memory was refused")
        print(f"{self.name}: {len(numbers)} of {self.count} allocations refused: runs ended with Memory: {became.count('ended')}; "
              f"lines told to be refused: {became.count('told')}; done without: {became.count('spared')}")


COMMANDS = [
    # An edit, a push, its confirmation, another's entry, an edit, a catch, and what two entries do together.
    ("node", ["node", "@", "7", TABLE], [],
     ["edit insert t1 1 t=v1", "push", "answer 110000000700000000000000010000000000000001 -",
      "answer 14000000000000000100000001000000000900000000000000010000001654020100743100120001000000000000000203027631 -", "edit update t1 1 t=v2", "catch 10",
      "answer 1500000007000000000000000200000000000000040000001654020100743100120001000000000000000303027631 -"],
     ["dump", "resend", "push"], r"^(refused|fault) Memory"),
    # Another's entry, taken; an edit, and at the end an entry at which a wish stops. The text of its clash takes five allocations, so more
    # of all are refused.
    ("follow", ["node", "--follow", "@", "7", TABLE], [],
     [f"answer {TAKEN} s", "place", "edit insert t1 1 t=v1", f"answer {CLASHES} s"], ["dump", "pending"], r"^(refused|fault) Memory|clash Memory$", 5),
    # Several edits as one request: some that are made, and some of which the second is refused.
    ("edits", ["node", "--follow", "@", "7", TABLE], [],
     ["edits 2\nedit insert t1 1 t=v1\nedit insert t1 2 t=v2", "place", "edits 2\nedit delete t1 1\nedit insert t1 2 t=v3", "edits 1\nedit update t1 2 t=v3"],
     ["dump", "pending"], r"^refused Memory"),
    # Two pushes on the base 0, of which the second is stale, one more, a pull, and a catch of both entries by another replica.
    ("hub", ["hub", "--file", "@", TABLE], [],
     [f"01000000070000000000000001000000000000000000000016{INSERT}", f"01000000080000000000000001000000000000000000000016{INSERT}",
      f"0100000007000000000000000200000000000000010000001b{UPDATE}", "0200000000000000000000000a", "030000000900000000000000000000000a"], ["02000000000000000000001000"], r"^1301$"),
    # A column for rows that are under way and pending, an edit of it, the push, and the entry again; and a clash behind it, which is seen.
    ("node-column", ["node", "@", "7", TABLE],
     ["edit insert t1 1 t=v1", "push", "answer 110000000700000000000000010000000000000001 -", "edit insert t1 2 t=x", "push", "edit update t1 1 t=v2", "edit insert t1 3 t=y"],
     [f"answer {WIDER} s", "edit update t1 1 - 5", "push", f"answer {WIDER} -"], ["dump", "resend", "push"], r"^(refused|fault) Memory"),
    ("follow-column", ["node", "--follow", "@", "7", TABLE], [f"answer {TAKEN} s", "edit insert t1 1 t=v1", "push", "edit update t1 2 t=z"],
     [f"answer {WIDER} s", "place", "edits 2\nedit update t1 1 - 5\nedit delete t1 2",
      "answer 14000000000000000200000001000000000900000000000000020000001954030100007431001200010000000000000001030161030162 s"], ["dump", "pending"],
     r"^(refused|fault) Memory|clash Memory$", 3),
    # The same at a hub: the request twice, a push by the tables of before and one by those behind it, a refused one, and what was made of
    # it.
    ("hub-column", ["hub", "--file", "@", TABLE], [f"01000000070000000000000001000000000000000000000016{INSERT}"],
     [WIDEN, WIDEN, f"01000000070000000000000001000000000000000000000016{INSERT}", f"01000000080000000000000001000000000000000200000019{INSERT_WIDE}",
      "040000000000000002000000000000000300000003000000027431", "0200000000000000000000000a", "030000000900000000000000000000000a", "030000000900000000000000010000000a"],
     ["02000000000000000000001000"], r"^1301$"),
    # The file opened again, of the hub and of the replica.
    ("hub-columns", ["hub", "--file", "@", TABLE], [f"01000000070000000000000001000000000000000000000016{INSERT}", WIDEN, "040000000000000001000000000000000200000005000000027431"],
     ["0200000000000000000000000a", "0100000008000000000000000100000000000000030000001b540501000000007431001200010000000000000002030161050505"],
     ["02000000000000000000001000"], r"^1301$"),
    ("node-columns", ["node", "@", "7", TABLE], [f"answer {TAKEN} s", "edit insert t1 1 t=v1", f"answer {WIDER} s"],
     ["edit update t1 1 - 5", "push", "resend"], ["dump", "resend", "push"], r"^(refused|fault) Memory"),
    # A column in a world: taken by one replica, entry by entry, and asked for by the other, whose push comes late.
    ("world-column", ["world", "2", TABLE], [],
     ["edit 0 insert t1 1 t=v1", "push 0", "deliver 0 -", "edit 1 insert t1 2 t=v2", "push 1", "widen 1 1 t1 3", "deliver 3 -", "deliver 4 -", "pull 1 1", "deliver 5 -", "deliver 6 -",
      "pull 1 1", "deliver 7 -", "deliver 8 -", "push 1", "catch 0 10"], [], r"Memory"),
    # Edits of two replicas, a push that reaches the hub, questions for entries and for what they do together, and the second's answer.
    ("world", ["world", "2", TABLE], [],
     ["edit 0 insert t1 1 t=v1", "edit 1 insert t1 2 t=v2", "push 0", "deliver 0 -", "pull 1 10", "edit 0 update t1 1 t=v3", "catch 1 10", "deliver 3 -", "deliver 4 -"], [], r"Memory"),
]

failed = 0
for parts in COMMANDS:
    try:
        Command(*parts).refuse_all()
    except Wrong as wrong:
        print(wrong, file=sys.stderr)
        failed = 1
sys.exit(failed)
