"""Makes the input of the hub benchmark, or measures a program on it.

    measure.py input FILE             4,096 pushes of one INSERT each, then 100 pulls of 1,000 entries
    measure.py compare PLAIN SYNC FILE    runs both as `hub t1:10` on FILE, compares what they write,
                                      and prints the ratios of their times and of their peak memory
"""

import filecmp
import os
import random
import struct
import subprocess
import sys
import threading
import time

PUSHES = 4096
PULLS = 100
PULLED = 1000
ROUNDS = 9


def varint(number):
    """A number below 2 ** 14 as a varint."""
    return bytes([number]) if number < 128 else bytes([128 | number >> 7, number & 127])


def value(source):
    """A text or blob of 20 to 200 bytes as a field."""
    length = source.randint(20, 200)
    if source.random() < 0.5:
        return b"\x03" + varint(length) + bytes(source.choices(range(32, 127), k=length))
    return b"\x04" + varint(length) + source.randbytes(length)


def push(source, number, key):
    """The push of one new row on the newest version."""
    row = b"\x01" + struct.pack(">q", key) + value(source)
    changeset = b"\x54\x02\x01\x00t1\x00" + b"\x12\x00" + row
    head = struct.pack(">BIQQI", 1, number % 4, number + 1, number, len(changeset))
    return head + changeset


def write_input(path):
    source = random.Random(20260101)
    keys = source.sample(range(-(2**40), 2**40), PUSHES)
    with open(path, "w") as out:
        for number, key in enumerate(keys):
            out.write(push(source, number, key).hex() + "\n")
        for _ in range(PULLS):
            first = source.randint(0, PUSHES - PULLED)
            out.write(struct.pack(">BQI", 2, first, PULLED).hex() + "\n")


def peak_of(process):
    """The most memory that a running process has had, in KiB."""
    with open(f"/proc/{process}/status") as status:
        for line in status:
            if line.startswith("VmHWM:"):
                return int(line.split()[1])
    sys.exit("no VmHWM")


def run(program, path, written):
    """Seconds of processor time, seconds, and peak memory in KiB of a run, whose output goes to a file.

    The input is kept open until all answers have come, so that the peak is read from the living
    process: what wait4 says of memory has this program's own in it."""
    with open(path, "rb") as given:
        requests = given.read()
    due = requests.count(b"\n")
    began = time.monotonic()
    child = subprocess.Popen([program, "hub", "t1:10"], stdin=subprocess.PIPE, stdout=subprocess.PIPE)
    feeder = threading.Thread(target=lambda: (child.stdin.write(requests), child.stdin.flush()))
    feeder.start()
    with open(written, "wb") as out:
        while due > 0:
            piece = os.read(child.stdout.fileno(), 1 << 20)
            if not piece:
                sys.exit(f"{program}: fewer answers than requests")
            due -= piece.count(b"\n")
            out.write(piece)
    seconds = time.monotonic() - began
    feeder.join()
    memory = peak_of(child.pid)
    child.stdin.close()
    _, status, used = os.wait4(child.pid, 0)
    child.returncode = os.waitstatus_to_exitcode(status)
    if child.returncode != 0:
        sys.exit(f"{program}: status {child.returncode}")
    return used.ru_utime + used.ru_stime, seconds, memory


def compare(plain, sync, path):
    best = {}
    outputs = {plain: path + ".plain", sync: path + ".sync"}
    for _ in range(ROUNDS):
        for program, written in outputs.items():
            now = run(program, path, written)
            best[program] = tuple(map(min, now, best.get(program, now)))
    for program in outputs:
        used, seconds, memory = best[program]
        print(f"{os.path.basename(program)}: {seconds:.3f} s, {used:.3f} s of a processor, {memory} KiB")
    names = ("processor time", "time", "peak memory")
    for name, mine, theirs in zip(names, best[sync], best[plain]):
        print(f"{name}: {mine / theirs:.2f} times the plain program's")
    if not filecmp.cmp(outputs[plain], outputs[sync], shallow=False):
        sys.exit("the two programs write different bytes")
    print(f"both write the same {os.path.getsize(outputs[plain])} bytes")


if __name__ == "__main__":
    if sys.argv[1] == "input":
        write_input(sys.argv[2])
    else:
        compare(*sys.argv[2:5])
