"""Two tills and a hub behind `hub/gateway.py`, over real sockets on 127.0.0.1, at ports that the system chooses. A till is `sync node` on a file, run anew
for each of its lines or few of them. The parts, in order:

- a conflict that is kept, one that is taken, and an answer that is lost;
- what the gateway refuses: tokens, origins, lengths, bodies, paths; and what it hands on for the hub to refuse. The hub's log stays as it is;
- a table that the administrator gives a column while both tills are away, with one's change under way and the other's pending;
- clients that hang up, that are slow, and many at a time, each of which is owed its own answers;
- a hub that gives no answer, one whose file may not grow, a second gateway on the file, and the end by SIGTERM, behind which no process is left;
- drawn work: edits, syncs of which answers are lost, and the hub, the gateway or both killed (SIGKILL) on the way and started again.

At the end both tills have the same rows, each row that was told to be inserted is there, the log has each push once, each that was told to be accepted is in
it, and SQLite finds each file whole.
Usage: check_gateway.py PROGRAM [STEPS] [SEED]"""

import http.client
import os
import random
import shutil
import signal
import socket
import sqlite3
import subprocess
import sys
import tempfile
import threading
import time

GATEWAY = os.path.join(os.path.dirname(os.path.abspath(__file__)), "..", "hub", "gateway.py")
TABLES = ["stock:100", "notes:10"]
LIMIT = 100
PATIENCE = 60
NORTH, SOUTH, ADMIN = "the-token-of-the-north", "the-token-of-the-south", "the-token-of-the-admin"
WIDEN = os.path.join(os.path.dirname(os.path.abspath(__file__)), "..", "clients", "python", "widen.py")
NO_PULL = "02" + "0" * 24
NO_ENTRIES = "14" + "0" * 24
BYTES = "application/octet-stream"


class Wrong(Exception):
    pass


class Away(Exception):
    """No answer: the gateway is gone, or has none."""


def owed(what, found, wanted):
    if found != wanted:
        raise Wrong("%.300s: %.500r in place of %.500r" % (what, found, wanted))


class Gateway:
    """The gateway's process, and the hub's below it. Both are one group, to be killed together."""

    def __init__(self, program, folder):
        self.folder = folder
        self.log = os.path.join(folder, "log")
        self.tokens = os.path.join(folder, "tokens")
        self.hub = [program, "hub", "--file", os.path.join(folder, "hub.db"), *TABLES]
        self.process = None
        with open(self.tokens, "w") as file:
            file.write("# the shop's\n1 %s\n\nadmin %s\n2 %s\n" % (NORTH, ADMIN, SOUTH))

    def command(self, seconds, tokens=None, hub=None):
        return [sys.executable, GATEWAY, "--seconds", str(seconds), "--most-bytes", "65536", "0", tokens or self.tokens, *(hub or self.hub)]

    def start(self, seconds=PATIENCE, hub=None):
        """Starts it, and once more where it ends: the hub of one that was killed may hold the file still."""
        until = time.time() + PATIENCE
        while not self.is_started(seconds, hub):
            if time.time() > until:
                raise Wrong("the gateway doesn't start:\n" + self.told())

    def is_started(self, seconds, hub):
        with open(self.log, "a") as log:
            self.process = subprocess.Popen(self.command(seconds, hub=hub), stdout=subprocess.PIPE, stderr=log, start_new_session=True)
        words = self.process.stdout.readline().split()
        if words[:1] == [b"ready"]:
            self.port = int(words[1])
            return True
        self.process.wait()
        self.process.stdout.close()
        return False

    def told(self):
        with open(self.log) as log:
            return log.read()

    def hub_process(self):
        return int(self.told().split("the hub is process ")[-1].split("\n")[0])

    def kill_hub(self):
        """It may have ended meanwhile, and another be starting."""
        hub = self.hub_process()
        try:
            if os.getpgid(hub) == self.process.pid:
                os.kill(hub, signal.SIGKILL)
        except ProcessLookupError:
            pass

    def kill(self, with_hub):
        """As a machine does that loses its power; or the gateway alone, whose hub then ends at the end of its input."""
        if with_hub:
            os.killpg(self.process.pid, signal.SIGKILL)
        else:
            self.process.kill()
        self.process.wait()
        self.process.stdout.close()

    def stop(self):
        """Asks it to end, as a service is. No process is left."""
        hub = self.hub_process()
        self.process.terminate()
        owed("the gateway's end by SIGTERM", self.process.wait(PATIENCE), 0)
        self.process.stdout.close()
        try:
            os.kill(hub, 0)
        except ProcessLookupError:
            return
        raise Wrong("the hub is left behind the gateway")

    def fails(self, what, status, text, **changed):
        """A gateway that can't start says why."""
        ran = subprocess.run(self.command(PATIENCE, **changed), stdin=subprocess.DEVNULL, capture_output=True, text=True, timeout=PATIENCE)
        owed(what, (ran.returncode, ran.stdout, text in ran.stderr), (status, "", True))

    def ask(self, method, path, body, headers):
        """A status, and what came with it."""
        line = http.client.HTTPConnection("127.0.0.1", self.port, timeout=PATIENCE)
        try:
            line.request(method, path, body, headers)
            reply = line.getresponse()
            return reply.status, reply.read()
        except (OSError, http.client.HTTPException) as error:
            raise Away(error)
        finally:
            line.close()

    def post(self, body, token, **headers):
        return self.ask("POST", "/", body, {"Authorization": "Bearer " + token, **headers})

    def answers(self, requests, token):
        """The answers of the hub, in hex, to requests in hex."""
        status, body = self.post("".join(line + "\n" for line in requests).encode(), token)
        if status == 503:
            raise Away(body)
        answers = body.decode().split("\n")[:-1]
        owed("the status and the answers to %s" % requests, (status, len(answers)), (200, len(requests)))
        return answers

    def is_well(self):
        return self.ask("GET", "/health", None, {}) == (200, b"ok\n")

    def gets_well(self):
        """Waits until the hub answers: it may be starting."""
        until = time.time() + PATIENCE
        while not self.is_well():
            if time.time() > until:
                raise Wrong("the hub doesn't come back:\n" + self.told())
            time.sleep(0.1)

    def entries(self):
        """The log's pushes, as (origin, number), by the lines of the hub."""
        answer = self.answers(["02%016x%08x" % (0, 4096)], NORTH)[0]
        count, rest, found = int(answer[18:26], 16), answer[26:], []
        for _ in range(count):
            found.append((int(rest[2:10], 16), int(rest[10:26], 16)))
            rest = rest[34 + 2 * int(rest[26:34], 16):]
        return found


class Till:
    """A replica on a file, with its token."""

    def __init__(self, program, folder, number, name, token):
        self.number = number
        self.name = name
        self.token = token
        self.path = os.path.join(folder, name + ".db")
        self.words = [program, "node", self.path, str(number), *TABLES]
        self.inserted = 0
        self.sure = set()
        self.accepted = set()

    def run(self, *lines):
        ran = subprocess.run(self.words, input="".join(line + "\n" for line in lines), capture_output=True, text=True, timeout=PATIENCE)
        owed("the end of %s" % self.name, (ran.returncode, ran.stderr), (0, ""))
        return ran.stdout.split("\n")[:-1]

    def does(self, *lines):
        owed("%s at %s" % (self.name, lines), self.run(*lines), ["ok"] * len(lines))

    def rows(self):
        """Where it stands, and its rows."""
        place, *rows = self.run("dump")
        return place.split(" ", 2)[2], rows

    def owns(self, draw):
        """A row that nobody else touches, and that has to be there in the end."""
        self.inserted += 1
        row = "stock t=%s.%s %s t=" % (self.name, self.inserted, draw.randrange(100))
        self.does("edit insert " + row)
        self.sure.add("row " + row)

    def round(self, ask, wish, way):
        """Sends what it has to send and asks for what is new, and hears the answers. How many entries were taken, and whether it pushed."""
        resend, push, pull = self.run("resend", "push", "%s %s" % (way, LIMIT))
        own = [line for line in (resend, push) if not line.startswith("refused ")][:1]
        answers = ask([*own, pull], self.token)
        for answer in answers:
            if answer.startswith("11"):
                self.accepted.add((int(answer[2:10], 16), int(answer[10:26], 16)))
        told = self.run(*["answer %s %s" % (answer, wish * LIMIT) for answer in answers])
        if not told[-1].startswith("taken ") or (own and not told[0].startswith(("accepted ", "stale ", "ignored"))):
            raise Wrong("%s is told %s" % (self.name, told))
        return int(told[-1].split()[1]), bool(own)

    def sync(self, ask, wish="k", way="pull"):
        """Until nothing is left to be sent, and nothing is new."""
        for _ in range(20):
            if self.round(ask, wish, way) == (0, False):
                return
        raise Wrong("%s doesn't come to rest" % self.name)


class Shop:
    def __init__(self, program, folder, seed):
        self.folder = folder
        self.draw = random.Random(seed)
        self.gateway = Gateway(program, folder)
        self.north = Till(program, folder, 1, "north", NORTH)
        self.south = Till(program, folder, 2, "south", SOUTH)
        self.tills = [self.north, self.south]
        self.kills = {"hub": 0, "gateway": 0, "both": 0}
        self.lost = 0
        self.refused = 0

    def rest(self):
        for till in (self.north, self.south, self.north):
            till.sync(self.gateway.answers)

    # ---- the parts

    def conflicts(self):
        north, south, ask = self.north, self.south, self.gateway.answers
        north.does("edit insert stock t=nails 100 t=", "edit insert stock t=glue 4 t=n%C3%A4h")
        self.rest()
        for wish, mine, theirs, left in ("k", 90, 80, 90), ("t", 70, 60, 60):
            south.does("edit update stock t=nails %s -" % mine)
            north.does("edit update stock t=nails %s -" % theirs)
            north.sync(ask)
            south.sync(ask, wish)
            north.sync(ask)
            rows = ["row stock t=glue 4 t=n%C3%A4h", "row stock t=nails " + str(left) + " t="]
            owed("the rows of the north", north.rows()[1], rows)
            owed("the rows of the south", south.rows(), north.rows())

    def answer_lost(self):
        """A push whose answer nobody heard is sent again, and counts once. The same as one message in bytes."""
        self.south.does("edit update stock t=glue 3 -")
        push, = self.south.run("push")
        answer, = self.gateway.answers([push], SOUTH)
        again, = self.south.run("resend")
        owed("the push under way", again, push)
        owed("its bytes", self.gateway.post(bytes.fromhex(again), SOUTH, **{"Content-Type": BYTES}), (200, bytes.fromhex(answer)))
        owed("the same twice in a body, in either case", self.gateway.answers([push.upper(), push], SOUTH), [answer, answer])
        owed("what the south is told", self.south.run("answer %s -" % answer)[0].split()[0], "accepted")
        self.rest()

    def refuses(self, what, status, found):
        self.refused += 1
        owed(what, found[0], status)
        if status != 200 and not found[1].endswith(b"\n"):
            raise Wrong("%s: no reason is told" % what)

    def refusals(self):
        post, ask = self.gateway.post, self.gateway.ask
        north = {"Authorization": "Bearer " + NORTH}
        before = self.gateway.entries()
        self.south.does("edit update stock t=nails 50 -")
        push, catch = self.south.run("push", "catch 10")
        line = push.encode() + b"\n"
        for token in NORTH[:-1], "", "x" * 5000, SOUTH + " ":
            wanted = 200 if token.strip() == SOUTH else 401
            self.refuses("the token %r" % token[:30], wanted, post(NO_PULL.encode(), token))
        self.refuses("no token", 401, ask("POST", "/", line, {}))
        self.refuses("a token of another kind", 401, ask("POST", "/", line, {"Authorization": "Basic " + SOUTH}))
        wider = widening(1, 0, "notes", 3)
        for what, body in ("another's push", line), ("the same in capitals", line.upper()), ("another's catch", catch.encode()), \
                ("another's push behind a pull", NO_PULL.encode() + b"\n" + line), ("a push without an origin", b"01"), \
                ("a wider table", wider), ("the same behind a pull", NO_PULL.encode() + b"\n" + wider), ("no more than its tag", b"04"):
            self.refuses(what, 403, post(body, NORTH))
        for message, token in (push, NORTH), (wider.decode(), SOUTH):
            self.refuses("the bytes %.20s" % message, 403, post(bytes.fromhex(message), token, **{"Content-Type": BYTES}))
        for what, body in ("the administrator's push", line), ("the administrator's catch", catch.encode()), ("a push without an origin", b"01"):
            self.refuses(what, 403, post(body, ADMIN))
        owed("why a wider table is refused", post(wider, SOUTH), (403, b"only the administrator's token gives a table more columns\n"))
        for what, body in ("no hex", b"hello"), ("half a byte", b"020"), ("a space", b"02 00"), ("a return", line[:-1] + b"\r\n"), \
                ("no hex behind the own push", line + b"x\n"), ("bytes as lines", bytes.fromhex(push)), ("too many lines", b"02\n" * 1001), \
                ("no request", b"05"), ("an answer", b"1302"), ("an empty line", b"\n"), ("an empty line behind the own push", line + b"\n"), \
                ("a pull of all entries", b"02" + b"0" * 16 + b"f" * 8), ("a catch of all entries", b"0300000002" + b"0" * 16 + b"f" * 8):
            self.refuses(what, 400, post(body, SOUTH))
        self.refuses("a body that is too long", 413, post(line + b"0" * (1 << 20), SOUTH))
        self.refuses("a length that is too long", 413, self.raw(b"POST / HTTP/1.1\r\nContent-Length: 99999999999\r\n\r\n"))
        self.refuses("no length", 411, self.raw(b"POST / HTTP/1.1\r\n\r\n"))
        self.refuses("pieces", 411, ask("POST", "/", iter([line]), north))
        for length in b"-1", b"1_0", b"+5", b"ten", b"5\r\nContent-Length: 6", b"9" * 30:
            self.refuses("the length %r" % length, 400, self.raw(b"POST / HTTP/1.1\r\nContent-Length: " + length + b"\r\n\r\n"))
        self.refuses("another path", 404, ask("POST", "/hub", line, north))
        self.refuses("another path", 404, ask("GET", "/", None, north))
        self.refuses("another method", 501, ask("DELETE", "/", None, north))
        self.refuses("no HTTP", 400, self.raw(b"hello there you\r\n\r\n"))
        # What is no matter of tokens and lengths the hub judges itself.
        owed("what the hub refuses", self.gateway.answers(["02", NO_PULL + "00", "0100000001", NO_PULL], NORTH), ["1302", "1315", "1302", NO_ENTRIES])
        owed("what it refuses the administrator", self.gateway.answers([
            "04", wider.decode() + "00", widening(1, 0, b"\xff", 3).decode(), widening(1, 1 << 40, "notes", 3).decode(), NO_PULL], ADMIN),
            ["1302", "1315", "1306", "1328", NO_ENTRIES])
        owed("no request", post(b"", NORTH), (200, b""))
        owed("the log behind refusals", self.gateway.entries(), before)
        self.rest()

    def widens(self):
        """Both tills go on by the words that they had. The hub and their files are opened so again, in what comes behind."""
        ask, before = self.gateway.answers, len(self.gateway.entries())
        self.north.does("edit insert notes 1 t=one", "edit insert notes 2 t=two")
        self.rest()
        self.north.does("edit update notes 1 t=ONE")
        late, = self.north.run("push")
        self.south.does("edit delete notes 2", "edit insert notes 3 t=three")
        for words, told in (["notes", "2"], "hub refused 46 BadWiden: there is no table notes, or it has as many columns"), \
                (["note", "3"], "hub refused 46 BadWiden: there is no table note, or it has as many columns"), \
                (["notes", "3"], "notes has 3 columns from version %s on" % (before + 2)), \
                (["notes", "3"], "hub refused 46 BadWiden: there is no table notes, or it has as many columns"):
            owed("the command %s" % words, self.widen(ADMIN, *words), told)
        owed("the command with a till's token", self.widen(NORTH, "notes", "4"),
             "the gateway says 403: only the administrator's token gives a table more columns")
        origin, number = self.gateway.entries()[-1]
        owed("whose entry it is", origin, (1 << 32) - 1)
        owed("the same again, and another on its base", ask(
            [widening(number, before + 1, "notes", 3).decode(), widening(number, before + 1, "notes", 4).decode()], ADMIN),
            ["11ffffffff%016x%016x" % (number, before + 2), "12%016x" % (before + 2)])
        owed("a push that comes late", ask([late], NORTH), ["12%016x" % (before + 2)])
        self.rest()
        rows = ["row notes 1 t=ONE null", "row notes 3 t=three null"]
        for till in self.tills:
            owed("the rows of %s" % till.name, till.rows()[1][-2:], rows)
        self.north.does("edit update notes 1 - t=high", "edit insert notes 4 t=four 4")
        owed("an edit of the old width", self.north.run("edit insert notes 5 t=five"), ["refused Width"])
        self.south.does("edit update notes 1 t=one -")
        self.rest()
        for till in self.tills:
            owed("the rows of %s" % till.name, till.rows()[1][-3:], ["row notes 1 t=one t=high", rows[1], "row notes 4 t=four 4"])
            till.sure.update(till.rows()[1][-3:])

    def widen(self, token, *words):
        """What the administrator's command tells."""
        ran = subprocess.run([sys.executable, "-B", WIDEN, "http://127.0.0.1:%s/" % self.gateway.port, *words], capture_output=True, text=True,
                             env={**os.environ, "TOKEN": token}, timeout=PATIENCE)
        owed("how the command %s ends" % (words,), (ran.returncode, bool(ran.stdout), bool(ran.stderr)), (0, True, False) if ran.stdout else (1, False, True))
        return (ran.stdout or ran.stderr).strip()

    def raw(self, request, is_all=False):
        """What is answered to bytes that no library would send: a status, and the body."""
        with socket.create_connection(("127.0.0.1", self.gateway.port), PATIENCE) as line:
            line.sendall(request)
            if is_all:
                line.shutdown(socket.SHUT_WR)
            reply = b""
            while True:
                piece = line.recv(65536)
                if not piece:
                    break
                reply += piece
        head, _, body = reply.partition(b"\r\n\r\n")
        return int((head.split() or [b"", b"0"])[1]), body

    def head(self, token, size):
        return ("POST / HTTP/1.1\r\nAuthorization: Bearer %s\r\nContent-Length: %s\r\n\r\n" % (token, size)).encode()

    def hang_ups(self):
        """A body that ends early does nothing. One that came whole is done, also where nobody is there to hear the answer."""
        before = self.gateway.entries()
        self.north.does("edit update stock t=nails 40 -")
        body = self.north.run("push")[0].encode() + b"\n"
        for part in body[:-1], body[:5], b"":
            self.refuses("a front of a push", 400, self.raw(self.head(NORTH, len(body)) + part, True))
            with socket.create_connection(("127.0.0.1", self.gateway.port)) as line:
                line.sendall(self.head(NORTH, len(body)) + part)
        owed("the log behind fronts of a push", self.gateway.entries(), before)
        with socket.create_connection(("127.0.0.1", self.gateway.port)) as line:
            line.sendall(self.head(NORTH, len(body)) + body)
        until = time.time() + PATIENCE
        while len(self.gateway.entries()) == len(before) and time.time() < until:
            time.sleep(0.05)
        owed("the log behind a push that nobody waited for", len(self.gateway.entries()), len(before) + 1)
        self.rest()

    def many(self):
        """Six clients at a time, each of which keeps its connection, sends its own last push again and pulls: none hears what is another's."""
        wrong, threads = [], []
        for till in self.tills:
            till.does("edit update stock t=nails 3%s -" % till.number)
            till.again, = till.run("push")
            till.told, = self.gateway.answers([till.again], till.token)
            owed("a push of %s" % till.name, till.told[:10], "11%08x" % till.number)
            self.rest()
        for at in range(6):
            threads.append(threading.Thread(target=self.one_of_many, args=(self.tills[at % 2], wrong)))
        for thread in threads:
            thread.start()
        for thread in threads:
            thread.join()
        if wrong:
            raise Wrong("of many clients at a time: %s" % wrong[:3])

    def one_of_many(self, till, wrong):
        line = http.client.HTTPConnection("127.0.0.1", self.gateway.port, timeout=PATIENCE)
        body = (till.again + "\n" + NO_PULL + "\n").encode()
        try:
            for _ in range(20):
                line.request("POST", "/", body, {"Authorization": "Bearer " + till.token})
                reply = line.getresponse()
                found = reply.status, reply.read().decode().split()
                if found != (200, [till.told, NO_ENTRIES]):
                    wrong.append(found)
        except (OSError, http.client.HTTPException) as error:
            wrong.append(error)
        finally:
            line.close()

    def slow(self):
        """With two seconds for each part: silent clients are sent away and hinder nobody, and a hub that gives no answer is replaced."""
        self.gateway.stop()
        self.gateway.start(2)
        self.gateway.gets_well()
        fronts = b"", b"POST", self.head(NORTH, 100), self.head(NORTH, 100) + b"02"
        silent = [socket.create_connection(("127.0.0.1", self.gateway.port), PATIENCE) for _ in fronts]
        for line, front in zip(silent, fronts):
            line.sendall(front)
        begun = time.time()
        owed("beside silent clients", self.gateway.answers([NO_PULL], NORTH), [NO_ENTRIES])
        for line, front in zip(silent, fronts):
            line.settimeout(PATIENCE)
            while line.recv(4096):
                pass
            line.close()
        if time.time() - begun > PATIENCE / 2:
            raise Wrong("silent clients stay for %s seconds" % (time.time() - begun))
        hub = self.gateway.hub_process()
        os.kill(hub, signal.SIGSTOP)
        owed("a hub that gives no answer", self.gateway.post(NO_PULL.encode(), NORTH)[0], 503)
        self.gateway.gets_well()
        owed("the next hub", self.gateway.answers([NO_PULL], NORTH), [NO_ENTRIES])
        owed("whether it is another", self.gateway.hub_process() != hub, True)

    def full(self):
        """A hub whose files may not grow past 256 KiB tells that its device failed, and is started anew. With room again it goes on, with nothing lost."""
        self.gateway.stop()
        self.gateway.start(hub=["sh", "-c", "trap '' XFSZ; ulimit -f 512; exec \"$@\"", "hub", *self.gateway.hub])
        keys = []
        while "device failed" not in self.gateway.told():
            owed("whether files of 256 KiB hold as many rows of 10,000 bytes", len(keys) < 26, True)
            keys.append("t=full%s" % len(keys))
            push = self.south.run("edit insert stock %s 1 x=%s" % (keys[-1], "00" * 10000), "push")[1]
            status, body = self.gateway.post(push.encode(), SOUTH)
            if status == 200:
                self.south.run("answer %s -" % body.decode().strip())
            else:
                owed("the status of a push without room", status, 503)
        self.gateway.stop()
        self.gateway.start()
        self.rest()
        owed("whether the last row came", "row stock %s 1 x=" % keys[-1] in "\n".join(self.north.rows()[1]), True)
        for key in keys:
            self.south.does("edit delete stock " + key)
            self.south.sync(self.gateway.answers)
        self.rest()

    def ends(self):
        """The hub is killed between two requests, the gateway asked to end while a connection is open, and gateways that can't start."""
        self.gateway.kill_hub()
        owed("a hub that was killed", self.gateway.answers([NO_PULL], NORTH), [NO_ENTRIES])
        self.gateway.fails("a second gateway on the file", 1, "sync: Device")
        owed("the first gateway then", self.gateway.answers([NO_PULL], NORTH), [NO_ENTRIES])
        kept = http.client.HTTPConnection("127.0.0.1", self.gateway.port, timeout=PATIENCE)
        kept.request("POST", "/", NO_PULL, {"Authorization": "Bearer " + NORTH})
        kept.getresponse().read()
        with socket.create_connection(("127.0.0.1", self.gateway.port)):
            self.gateway.stop()
        kept.close()
        for words in ["stock:10", "notes:10"], ["stock:100", "notes:100"]:
            self.gateway.fails("the tables %s" % words, 1, "sync: Mismatch", hub=[*self.gateway.hub[:-2], *words])
        self.gateway.fails("no program", 1, "can't be started", hub=[os.path.join(self.folder, "none"), "hub"])
        for text in "", "1 short\n", "1\n", "x %s\n" % NORTH, "4294967296 %s\n" % NORTH, "1 %s\n2 %s\n" % (NORTH, NORTH), \
                "admin\n", "admin short\n", "admins %s\n" % NORTH, "1 %s\nadmin %s\n" % (NORTH, NORTH):
            path = os.path.join(self.folder, "bad")
            with open(path, "w") as file:
                file.write(text)
            self.gateway.fails("the tokens %r" % text, 2, "gateway: " + path, tokens=path)
        self.gateway.start()

    # ---- drawn work

    def lossy(self, requests, token):
        """Asks, and at times loses the answer, or kills what is asked on the way."""
        killed = self.draw.random()
        if killed < 0.2:
            threading.Timer(self.draw.random() * 0.05, self.gateway.kill_hub).start()
            self.kills["hub"] += 1
        elif killed < 0.3:
            self.kill_gateway(self.draw.random() < 0.5)
        answers = self.gateway.answers(requests, token)
        if self.draw.random() < 0.25:
            self.lost += 1
            raise Away("the answer was lost")
        return answers

    def kill_gateway(self, with_hub):
        """Beside a request, mostly; before it, where the drawn time is short."""
        self.kills["both" if with_hub else "gateway"] += 1
        process = self.gateway.process
        kill = os.killpg if with_hub else os.kill
        threading.Timer(self.draw.random() * 0.05, kill, (process.pid, signal.SIGKILL)).start()

    def drawn(self):
        till = self.draw.choice(self.tills)
        till.owns(self.draw)
        article = "t=a%s" % self.draw.randrange(6)
        till.run(self.draw.choice(["edit insert stock %s %s t=", "edit update stock %s %s -"]) % (article, self.draw.randrange(100)),
                 *["edit delete stock t=a%s" % self.draw.randrange(6)] * self.draw.randrange(2))
        if self.draw.random() < 0.6:
            try:
                till.sync(self.lossy, self.draw.choice("kt"), self.draw.choice(["pull", "catch"]))
            except Away:
                pass
        self.revive()

    def revive(self):
        """Starts the gateway again where it was killed, and waits for kills that are under way."""
        for thread in threading.enumerate():
            if isinstance(thread, threading.Timer):
                thread.join()
        time.sleep(0.02)
        if self.gateway.process.poll() is not None:
            self.gateway.process.stdout.close()
            self.gateway.start()

    # ---- the end

    def at_rest(self):
        self.rest()
        log = self.gateway.entries()
        self.gateway.stop()
        place, rows = self.north.rows()
        owed("where both are", (self.south.rows(), place), ((place, rows), "version %s pending 0 flight 0" % len(log)))
        owed("pushes that count twice", len(log) - len(set(log)), 0)
        for till in self.tills:
            owed("rows of %s that are gone" % till.name, till.sure - set(rows), set())
            owed("pushes of %s that were accepted and are gone" % till.name, till.accepted - set(log), set())
        for path in os.path.join(self.folder, "hub.db"), self.north.path, self.south.path:
            owed("what SQLite says of %s" % path, selected(path, "PRAGMA integrity_check"), [("ok",)])
        owed("the log in the file", selected(os.path.join(self.folder, "hub.db"), "SELECT origin, number FROM log ORDER BY version"), log)
        return len(log), len(rows)


def widening(number, base, table, width):
    """A request for a wider table, as a line of hex."""
    name = table if isinstance(table, bytes) else table.encode()
    return b"04%016x%016x%08x%08x%s" % (number, base, width, len(name), name.hex().encode())


def selected(path, query):
    found = sqlite3.connect(path)
    try:
        return found.execute(query).fetchall()
    finally:
        found.close()


def main():
    program = os.path.abspath(sys.argv[1])
    steps = int(sys.argv[2]) if len(sys.argv) > 2 else 20
    seed = int(sys.argv[3]) if len(sys.argv) > 3 else 1
    folder = tempfile.mkdtemp()
    shop = Shop(program, folder, seed)
    try:
        shop.gateway.start()
        shop.gateway.gets_well()
        for part in shop.conflicts, shop.answer_lost, shop.refusals, shop.widens, shop.hang_ups, shop.many, shop.slow, shop.full, shop.ends:
            part()
        for _ in range(steps):
            shop.drawn()
        entries, rows = shop.at_rest()
    except (Wrong, Away) as wrong:
        kept = os.environ.get("BENCH_KEPT")
        if kept:
            shutil.rmtree(kept, ignore_errors=True)
            shutil.copytree(folder, kept)
        print("gateway, seed %s: %s" % (seed, wrong), file=sys.stderr)
        sys.exit(1)
    finally:
        if shop.gateway.process and shop.gateway.process.poll() is None:
            shop.gateway.kill(True)
        shutil.rmtree(folder, ignore_errors=True)
    print("gateway: %s requests refused as they have to be; %s drawn steps, the hub killed %s times, the gateway %s, both %s, %s answers lost; "
          "both tills have the same %s rows, and each of %s pushes counts once"
          % (shop.refused, steps, shop.kills["hub"], shop.kills["gateway"], shop.kills["both"], shop.lost, rows, entries))


main()
