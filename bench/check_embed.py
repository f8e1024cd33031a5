#!/usr/bin/env python3
"""Checks the library cs_embed as a program in Python meets it, by ctypes: two tills and a hub in one process, over files that it keeps whole. One conflict is answered
by keeping the own row, one by taking the other's. A table gets a column. What the library hands over is opened by SQLite, which also makes the damaged and foreign files that are to be
refused by name. Where the program `sync` is given, it goes on with these files, and the library with what it leaves.

Usage: check_embed.py LIBRARY FOLDER [SYNC]       LIBRARY is libcs_embed.so, FOLDER one to write into
"""
import ctypes, os, sqlite3, subprocess, sys

NAMES = {1: "Memory", 50: "NoTables", 60: "line", 61: "Damaged", 62: "Device", 63: "Mismatch", 64: "BadId"}
STOCK = b"T\3\1\0\0stock\0"     # a table `stock` of three columns, of which the first is the key
WIDE = b"T\4\1\0\0\0stock\0"     # the same with one more
HUB = None


class Answer(ctypes.Structure):
    _fields_ = [("fault", ctypes.c_uint32), ("line", ctypes.c_uint64), ("told", ctypes.c_size_t), ("file", ctypes.c_size_t)]


class Failed(Exception):
    pass


def load(path):
    library = ctypes.CDLL(path)
    given, room = [ctypes.c_char_p, ctypes.c_size_t], [ctypes.c_void_p, ctypes.c_size_t]
    library.cs_embed_node.argtypes = [*given, ctypes.c_uint32, *given, *given, *room, *room]
    library.cs_embed_hub.argtypes = [*given, *given, *given, *room, *room]
    library.cs_embed_node.restype = library.cs_embed_hub.restype = Answer
    return library


def call(id, file, lines, tables=STOCK):
    """What lines come to, and the new bytes of the file; no room is given at first, and then what is wanted."""
    told_room = left_room = 0
    while True:
        told, left = ctypes.create_string_buffer(told_room + 1), ctypes.create_string_buffer(left_room + 1)
        front = [tables, len(tables)] if id is HUB else [tables, len(tables), id]
        function = library.cs_embed_hub if id is HUB else library.cs_embed_node
        answer = function(*front, file, len(file), lines, len(lines), told, told_room, left, left_room)
        if answer.fault:
            raise Failed(NAMES[answer.fault] + (f" {answer.line}" if answer.line else ""))
        if answer.told <= told_room and answer.file <= left_room:
            return told.raw[:answer.told].decode().splitlines(), left.raw[:answer.file]
        told_room, left_room = answer.told, answer.file


class Kept:
    """A file of a till, or of the hub."""

    def __init__(self, path, id):
        self.path, self.id = path, id

    def bytes(self):
        if not os.path.exists(self.path):
            return b""
        with open(self.path, "rb") as file:
            return file.read()

    def put(self, new):
        """Puts new bytes in the old ones' place whole, and is sure of them before it returns."""
        with open(self.path + ".new", "wb") as file:
            file.write(new)
            file.flush()
            os.fsync(file.fileno())
        os.replace(self.path + ".new", self.path)

    def ask(self, *lines):
        texts, new = call(self.id, self.bytes(), "".join(line + "\n" for line in lines).encode())
        self.put(new)
        return texts


def owe(what, got, owed):
    global looked
    looked += 1
    if got != owed:
        sys.exit(f"cs_embed: {what}: got {got!r}, owed {owed!r}")


def refused(what, owed, *words, **named):
    try:
        got = call(*words, **named)
    except Failed as why:
        got = str(why)
    owe(what, got, owed)


def talk(till, hub, what, wishes, owed):
    """Sends what a till asks for to the hub, and tells the till the answer."""
    answer, = hub.ask(*till.ask(what))
    owe(what, till.ask(f"answer {answer} {wishes}"), owed)


def story(north, south, hub):
    owe("edits", north.ask("edit insert stock t=nails 100 t=", "edit insert stock t=glue 4 t="), ["ok", "ok"])
    owe("refused edits", north.ask("edit insert stock t=nails 1 t=", "edit delete stock t=tape", "edit insert other 1"),
        ["refused Exists", "refused Missing", "refused NoTable"])
    talk(north, hub, "push", "-", ["accepted 1"])
    talk(south, hub, "pull 10", "-", ["taken 1 version 1"])
    owe("edits in the south", south.ask("edit update stock t=nails 90 -", "edit update stock t=glue 3 -"), ["ok", "ok"])
    owe("edits in the north", north.ask("edit update stock t=nails 80 -", "edit update stock t=glue 2 -"), ["ok", "ok"])
    talk(north, hub, "push", "-", ["accepted 2"])
    talk(south, hub, "push", "-", ["stale 2"])
    talk(south, hub, "pull 10", "tk", ["taken 1 version 2"])      # the other's glue is taken, the own nails are kept
    talk(south, hub, "push", "-", ["accepted 3"])
    talk(north, hub, "pull 10", "-", ["taken 1 version 3"])
    for till in north, south:
        owe("a dump", till.ask("dump"), [f"replica {till.id} version 3 pending 0 flight 0", *ROWS])


ROWS = ["row stock t=glue 2 t=", "row stock t=nails 90 t="]


def opens(kept, counts):
    """SQLite opens what was handed over, finds it whole, and so many rows in its tables."""
    with sqlite3.connect(f"file:{kept.path}?mode=ro", uri=True) as base:
        owe("the file in SQLite", base.execute("PRAGMA integrity_check").fetchall(), [("ok",)])
        tables = ["rows", "meta", "log", "pending"]
        owe("its tables", [name for name, in base.execute("SELECT name FROM sqlite_master WHERE type = 'table' ORDER BY rowid")], tables)
        for table, count in counts.items():
            owe(table, base.execute(f"SELECT count(*) FROM {table}").fetchone(), (count,))
    base.close()


def changed(kept, name, *statements):
    """The bytes of the file once SQLite has changed it so."""
    path = f"{kept.path}.{name}"
    with open(path, "wb") as file:
        file.write(kept.bytes())
    base = sqlite3.connect(path)
    for statement in statements:
        base.execute(statement)
    base.commit()
    base.close()
    return Kept(path, kept.id).bytes()


def files(north, hub):
    """Files that are damaged, another's, or no database at all are refused by name."""
    good = north.bytes()
    for name, statement in [("meta", "DELETE FROM meta WHERE name = (SELECT min(name) FROM meta)"), ("body", "UPDATE rows SET body = x'00'"),
                            ("key", "UPDATE rows SET key = x'05' WHERE rowid = (SELECT min(rowid) FROM rows)"), ("tab", "UPDATE rows SET tab = 7")]:
        refused(f"a damaged {name}", "Damaged", 1, changed(north, name, statement), b"dump\n")
    refused("a gap in the log", "Damaged", HUB, changed(hub, "gap", "DELETE FROM log WHERE version = (SELECT min(version) FROM log)"), b"")
    refused("another table beside", "Device", 1, changed(north, "more", "CREATE TABLE more (a)"), b"dump\n")
    refused("an index beside", "Device", HUB, changed(hub, "index", "CREATE INDEX more ON log (number)"), b"")
    refused("a front of it", "Device", 1, good[:8192], b"dump\n")
    refused("a first page of zeros", "Device", 1, bytes(4096) + good[4096:], b"dump\n")
    refused("a text", "Device", 1, b"no database\n" * 1000, b"dump\n")
    refused("another id", "Mismatch", 2, good, b"dump\n")
    refused("other tables", "Mismatch", 1, good, b"dump\n", tables=b"T\3\1\1\0stock\0")
    refused("a hub's file", "Mismatch", 1, hub.bytes(), b"dump\n")
    refused("a till's file", "Mismatch", HUB, good, b"")
    refused("the last id", "BadId", 2 ** 32 - 1, good, b"dump\n")
    refused("no tables", "NoTables", 1, good, b"dump\n", tables=b"T\3")
    refused("a line", "line 3", 1, good, b"dump\ndump\ndump now\n")
    owe("a new file", call(5, b"", b"dump\n")[0], ["replica 5 version 0 pending 0 flight 0"])
    # What is no page of a good file may be read or not, and never ends the process.
    for at in range(0, len(good), 101):
        broken = bytearray(good)
        broken[at] ^= 0x55
        try:
            texts, new = call(1, bytes(broken), b"dump\n")
            owe(f"a byte changed at {at}, again", call(1, new, b"dump\n")[0], texts)
        except Failed as why:
            owe(f"a byte changed at {at}", str(why) in ("Damaged", "Device", "Mismatch"), True)


def beside(program, north, south, hub):
    """The program goes on with the library's files, and the library with the program's."""
    def run(words, lines):
        return subprocess.run([program, *words], input="".join(line + "\n" for line in lines), capture_output=True, text=True, check=True).stdout.splitlines()

    words = ["node", north.path, "1", "stock:100"]
    owe("the program's dump", run(words, ["dump"]), ["replica 1 version 3 pending 0 flight 0", *ROWS])
    request = run(words, ["edit delete stock t=glue", "push"])[1]
    owe("the push in the library", north.ask("resend"), [request])
    answer, = run(["hub", "--file", hub.path, "stock:100"], [request])
    owe("the program's answer in the library", north.ask(f"answer {answer} -"), ["accepted 4"])
    talk(south, hub, "pull 10", "-", ["taken 1 version 4"])
    owe("the rows", run(["node", south.path, "2", "stock:100"], ["dump"])[1:], ["row stock t=nails 90 t="])


def wider(program, north, south, hub):
    """The hub gives its table a fourth column. The tills' files are opened by three columns and by four, the hub's by three."""
    at = int(south.ask("dump")[0].split()[3])
    widen = "04%016x%016x%08x%08x%s" % (1, at, 4, 5, b"stock".hex())
    owe("a wider table", hub.ask(widen, widen), ["11ffffffff%016x%016x" % (1, at + 1)] * 2)
    for till in north, south:
        talk(till, hub, "catch 10", "-", [f"taken 1 version {at + 1}"])
    owe("the edits", north.ask("edit insert stock t=oil 1 t=", "edit insert stock t=oil 1 t= 7"), ["refused Width", "ok"])
    talk(north, hub, "push", "-", [f"accepted {at + 2}"])
    talk(south, hub, "pull 10", "-", [f"taken 1 version {at + 2}"])
    dump = [f"replica 2 version {at + 2} pending 0 flight 0", "row stock t=oil 1 t= 7", *[row + " null" for row in (ROWS[1:] if program else ROWS)]]
    owe("the rows by three columns", south.ask("dump"), dump)
    owe("the rows by four", call(2, south.bytes(), b"dump\n", tables=WIDE)[0], dump)
    for tables in b"T\5\1\0\0\0\0stock\0", b"T\3\1\0\1stock\0", b"T\4\1\0\0\0other\0":
        refused("other tables than the file's", "Mismatch", 2, south.bytes(), b"dump\n", tables=tables)
    refused("the hub by four", "Mismatch", HUB, hub.bytes(), b"", tables=WIDE)
    if program:
        for word in "stock:100", "stock:1000":
            ran = subprocess.run([program, "node", south.path, "2", word], input="dump\n", capture_output=True, text=True, check=True)
            owe("the program's rows", ran.stdout.splitlines(), dump)


looked = 0
library = load(os.path.abspath(sys.argv[1]))
folder = sys.argv[2]
tills = [Kept(f"{folder}/north.db", 1), Kept(f"{folder}/south.db", 2), Kept(f"{folder}/hub.db", HUB)]
for kept in tills:
    if os.path.exists(kept.path):
        os.remove(kept.path)
story(*tills)
opens(tills[0], {"rows": 2, "log": 0, "pending": 0})
opens(tills[2], {"rows": 2, "log": 3, "pending": 0})
files(tills[0], tills[2])
if len(sys.argv) > 3:
    beside(sys.argv[3], *tills)
wider(sys.argv[3] if len(sys.argv) > 3 else None, *tills)
print(f"cs_embed from Python: {looked} answers as they are owed{', and the program beside it' if len(sys.argv) > 3 else ''}")
