"""Times the syncs of 1, 8 and 32 tills through `hub/gateway.py`, with all files on one disk. Each till is a process with the client in Python. It changes its own row and
syncs, again and again: a sync is a push, a catch of what the others did meanwhile, and a catch that finds nothing more.
Usage: gateway.py PROGRAM FOLDER SECONDS"""

import multiprocessing
import os
import subprocess
import sys
import time

ROOT = os.path.join(os.path.dirname(os.path.abspath(__file__)), "..")
sys.path.insert(0, os.path.join(ROOT, "clients", "python"))

from replica import Replica, http_exchange


def work(program, folder, url, id, seconds, ready, counts):
    with Replica(os.path.join(folder, "%s.db" % id), id, {"stock": ["article*", "pieces"]}, program) as till:
        exchange = http_exchange(url, "the-token-of-till-%s" % id)
        till.insert("stock", id, 0)
        till.sync(exchange)
        ready.wait()
        count, end = 0, time.monotonic() + seconds
        while time.monotonic() < end:
            count += 1
            till.update("stock", id, pieces=count)
            till.sync(exchange)
        counts.put(count)


def measure(program, folder, tills, seconds):
    os.mkdir(folder)
    tokens = os.path.join(folder, "tokens")
    with open(tokens, "w") as file:
        file.writelines("%s the-token-of-till-%s\n" % (id, id) for id in range(1, tills + 1))
    command = [sys.executable, "-B", os.path.join(ROOT, "hub", "gateway.py"), "0", tokens, program, "hub", "--file", os.path.join(folder, "hub.db"), "stock:10"]
    gateway = subprocess.Popen(command, stdout=subprocess.PIPE, stderr=subprocess.DEVNULL, text=True)
    try:
        url = "http://127.0.0.1:%s/" % gateway.stdout.readline().split()[1]
        ready, counts = multiprocessing.Barrier(tills), multiprocessing.Queue()
        workers = [multiprocessing.Process(target=work, args=(program, folder, url, id, seconds, ready, counts), daemon=True) for id in range(1, tills + 1)]
        for worker in workers:
            worker.start()
        count = sum(counts.get(timeout=10 * seconds + 60) for _ in workers)
        for worker in workers:
            worker.join()
    finally:
        gateway.terminate()
        gateway.wait()
    print("%s tills: %.0f syncs a second, %.1f ms each" % (tills, count / seconds, 1000 * tills * seconds / count), flush=True)


def main(program, folder, seconds):
    for tills in 1, 8, 32:
        measure(program, os.path.join(folder, "tills%s" % tills), tills, float(seconds))


main(*sys.argv[1:])
