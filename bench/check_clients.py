"""Runs the tests of the client in C, with a gateway over a hub on a file. The client in Python then looks at what they left.
Usage: check_clients.py PROGRAM TEST"""

import os
import subprocess
import sys
import tempfile

ROOT = os.path.join(os.path.dirname(os.path.abspath(__file__)), "..")
sys.path.insert(0, os.path.join(ROOT, "clients", "python"))

from replica import Replica, Synced, http_exchange

PATIENCE = 600
TOKENS = ["the-token-of-the-north", "the-token-of-the-south", "the-token-of-a-third"]
ADMIN = "the-token-of-the-admin"


def main(program, test):
    with tempfile.TemporaryDirectory() as folder:
        tokens = os.path.join(folder, "tokens")
        with open(tokens, "w") as file:
            file.writelines("%s %s\n" % (id, token) for id, token in [*enumerate(TOKENS, 1), ("admin", ADMIN)])
        command = [sys.executable, "-B", os.path.join(ROOT, "hub", "gateway.py"), "0", tokens, program, "hub", "--file", os.path.join(folder, "hub.db"), "stock:100"]
        gateway = subprocess.Popen(command, stdout=subprocess.PIPE, stderr=subprocess.DEVNULL, text=True)
        try:
            port = gateway.stdout.readline().split()[1]
            ran = subprocess.run([test, program, folder, port, *TOKENS[:2], ADMIN], timeout=PATIENCE)
            if ran.returncode:
                sys.exit("the tests of the client in C end with status %s" % ran.returncode)
            with Replica(os.path.join(folder, "third.db"), 3, {"stock": ["article*", "pieces", "note"]}, program) as third:
                found = third.sync(http_exchange("http://127.0.0.1:%s/" % port, TOKENS[2])), [(row, row.more) for row in third.rows("stock")]
                wanted = Synced(10, 10, None), [(("rope", 1, None), (None, None)), (("tape", 2, ""), (None, None))]
                if found != wanted:
                    sys.exit("behind the tests of the client in C: %s in place of %s" % (found, wanted))
        finally:
            gateway.terminate()
            gateway.wait()


main(*sys.argv[1:])
