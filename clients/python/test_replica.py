"""The tests of replica.py over the program `sync`, which the environment's SYNC names: SYNC=out/sync python3 -m unittest test_replica. bench/check_clients.sh runs them."""
from __future__ import annotations

import os, random, shutil, subprocess, sys, tempfile, threading, unittest
from pathlib import Path

import replica
from replica import BadEntry, Clash, Device, Ended, HubRefused, Mismatch, Place, Real, Refused, Replica, Synced, Wish
from replica import delete, http_exchange, insert, keep_mine, take_theirs, update
from widen import widen

SYNC = os.environ.get("SYNC", "sync")
GATEWAY = Path(__file__).resolve().parents[2] / "hub" / "gateway.py"
STOCK = {"stock": ["article*", "pieces", "note"]}
LATER = {"stock": ["article*", "pieces", "note", "shelf+"]}
WIDE = {"stock": ["article*", "pieces", "note", "shelf"]}


class Hub:
    """A hub in memory. Its exchange may be told what happens to the answers."""

    def __init__(self, *words):
        self.child = subprocess.Popen([SYNC, "hub", *(words or ["stock:100"])], stdin=subprocess.PIPE, stdout=subprocess.PIPE, text=True, bufsize=1)
        self.asked = []

    def __call__(self, requests):
        self.asked.append(requests)
        return [self.ask(request) for request in requests]

    def ask(self, request):
        self.child.stdin.write(request + "\n")
        return self.child.stdout.readline().strip()

    def log(self):
        """Origin and number of each push that counted."""
        answer = self.ask("02%016x%08x" % (0, 4096))
        count, rest, found = int(answer[18:26], 16), answer[26:], []
        for _ in range(count):
            found.append((int(rest[2:10], 16), int(rest[10:26], 16)))
            rest = rest[34 + 2 * int(rest[26:34], 16):]
        return found

    def close(self):
        self.child.stdin.close()
        self.child.stdout.close()
        self.child.wait()


class Case(unittest.TestCase):
    def setUp(self):
        self.folder = tempfile.mkdtemp()
        self.addCleanup(shutil.rmtree, self.folder)

    def till(self, id, tables=STOCK, name=None):
        till = Replica(os.path.join(self.folder, name or f"{id}.db"), id, tables, SYNC)
        self.addCleanup(till.close)
        return till

    def hub(self, *words):
        hub = Hub(*words)
        self.addCleanup(hub.close)
        return hub

    def shown(self, till):
        """All values of each row, but for the NULLs at its end."""
        rows = []
        for row in till.rows("stock"):
            values = list(row + row.more)
            while values[-1] is None:
                values.pop()
            rows.append(values)
        return rows

    def refuses(self, name, call, /, *values, **fields):
        with self.assertRaises(Refused) as told:
            call(*values, **fields)
        self.assertEqual((type(told.exception).__name__, str(told.exception).split(":")[0]), (name, name))
        return told.exception


class Tables(Case):
    def test_values_come_back(self):
        till = self.till(1, {"all sorts: 100%": ["value", "key*"], "row": ["key*"]})
        values = [None, 0, -1, (1 << 63) - 1, -1 << 63, "", "a b", "100 %41\n\t", "näh \U0001f600 -", "null", "x=", b"", bytes(range(256)), True]
        for key, value in enumerate(values):
            till.insert("all sorts: 100%", value, key)
        self.assertEqual(till.rows("all sorts: 100%"), [(value, key) for key, value in enumerate(values)])
        self.assertEqual([type(row[0]) for row in till.rows("all sorts: 100%")][:3], [type(None), int, int])
        till.update("all sorts: 100%", 0, value="new")
        till.update("all sorts: 100%", 1)
        self.assertEqual(till.row("all sorts: 100%", 0), ("new", 0))
        self.assertEqual(till.row("all sorts: 100%", 1), (0, 1))
        till.delete("all sorts: 100%", 0)
        self.assertIsNone(till.row("all sorts: 100%", 0))
        for key in "row", b"own", "-", -5:
            till.insert("row", key)
        self.assertEqual(sorted(map(repr, till.rows("row"))), ["('-',)", "('row',)", "(-5,)", "(b'own',)"])
        self.assertEqual(till.place(), Place(0, len(values) + 3, 0))

    def test_refusals_have_names_and_change_nothing(self):
        till = self.till(1)
        till.insert("stock", "nails", 100, "")
        self.refuses("NoTable", till.insert, "shop", 1)
        self.refuses("NoTable", till.rows, "shop")
        self.refuses("Width", till.insert, "stock", "glue", 1)
        self.refuses("Width", till.delete, "stock")
        self.refuses("Width", till.row, "stock", 1, 2)
        self.refuses("NullKey", till.insert, "stock", None, 1, "")
        self.refuses("Exists", till.insert, "stock", "nails", 1, "")
        self.refuses("Missing", till.update, "stock", "glue", pieces=1)
        self.refuses("Missing", till.delete, "stock", "glue")
        self.refuses("KeyColumn", till.update, "stock", "nails", article="glue")
        self.assertIn("prices are integers", str(self.refuses("Real", till.insert, "stock", "glue", 2.5, "")))
        for wrong, kind in (1 << 63, OverflowError), ([], TypeError), ("\ud800", UnicodeEncodeError):
            with self.assertRaises(kind):
                till.insert("stock", "glue", wrong, "")
        with self.assertRaises(TypeError):
            till.update("stock", "nails", peices=1)
        self.assertEqual(till.rows("stock"), [("nails", 100, "")])
        self.assertEqual(till.place(), Place(0, 1, 0))

    def test_several_edits_are_one(self):
        till = self.till(1)
        till.insert("stock", "nails", 100, "")
        glue = insert("stock", "glue", 4, "näh \n")
        till.edits([glue, update("stock", "glue", pieces=3), update("stock", "nails", pieces=90, note=None), insert("stock", "saw", 1, ""), delete("stock", "saw")])
        self.assertEqual(sorted(till.rows("stock")), [("glue", 3, "näh \n"), ("nails", 90, None)])
        self.assertEqual(till.place(), Place(0, 2, 0))
        till.edits(iter([delete("stock", "glue")]))
        till.edits([])
        self.assertEqual(till.rows("stock"), [("nails", 90, None)])
        for index, name, edits in (
            (0, "Exists", [insert("stock", "nails", 1, ""), glue]),
            (1, "Missing", [glue, delete("stock", "saw"), glue]),
            (2, "Exists", [delete("stock", "nails"), glue, glue]),
            (1, "NullKey", [glue, insert("stock", None, 4, "")]),
            (1, "NoTable", [glue, insert("shop", 1)]),
            (2, "Width", [delete("stock", "saw"), glue, delete("stock", "nails", 1)]),
            (1, "KeyColumn", [glue, update("stock", "nails", article="saw")]),
            (1, "Real", [glue, update("stock", "nails", pieces=2.5)]),
        ):
            refused = self.refuses(name, till.edits, edits)
            self.assertEqual((refused.index, str(refused).split(": ")[-1]), (index, f"edits[{index}]"))
        self.assertRaises(OverflowError, till.edits, [glue, insert("stock", 1 << 63, 4, "")])
        self.assertIsNone(self.refuses("Exists", till.insert, "stock", "nails", 1, "").index)
        self.assertEqual((till.rows("stock"), till.place()), ([("nails", 90, None)], Place(0, 1, 0)))
        till.edits([insert("stock", number, number, "x" * 100) for number in range(700)])
        self.assertEqual(till.place(), Place(0, 701, 0))
        till.close()
        self.assertEqual(len(self.till(1).rows("stock")), 701)

    def test_edits_that_are_cut_short_are_not_made(self):
        class Broken:
            def __init__(self, pipe):
                self.pipe, self.close = pipe, pipe.close
            def write(self, lines):
                self.pipe.write(lines[:-2])
            def flush(self):
                self.pipe.flush()
                raise KeyboardInterrupt
            @property
            def closed(self):
                return self.pipe.closed
        first, second = insert("stock", 1, 1, 12), insert("stock", 2, 1, 12)
        for id, call in (1, lambda till: till.insert("stock", 1, 1, 12)), (2, lambda till: till.edits([first, second])):
            till = self.till(id)
            till._node.stdin = Broken(till._node.stdin)
            self.assertRaises(KeyboardInterrupt, call, till)
            self.assertRaises(Ended, till.rows, "stock")
            self.assertEqual(self.till(id).rows("stock"), [])

    def test_a_file_is_one_replicas_and_one_programs(self):
        till = self.till(1)
        till.insert("stock", "nails", 100, "")
        self.refuses("Device", self.till, 1)
        till._node.kill()
        for _ in range(2):
            with self.assertRaises(Ended):
                till.rows("stock")
        with self.till(1) as till:
            self.assertEqual(till.rows("stock"), [("nails", 100, "")])
        with self.assertRaises(Ended):
            till.insert("stock", "glue", 4, "")
        till.close()
        self.refuses("Mismatch", self.till, 2, name="1.db")
        self.refuses("Mismatch", self.till, 1, {"stock": ["article*", "pieces*", "note"]})
        self.refuses("Device", self.till, 1, name="nowhere/1.db")
        for wrong in (1 << 32, STOCK), (3, {"stock": ["no", "key"]}):
            with self.assertRaises(Ended):
                self.till(*wrong)
        with self.assertRaises(FileNotFoundError):
            Replica("1.db", 1, STOCK, os.path.join(self.folder, "no program"))

    def test_a_call_that_is_broken_off_ends_the_process(self):
        class Broken:
            def __init__(self, pipe):
                self.close = pipe.close
            def readline(self):
                raise KeyboardInterrupt
        till = self.till(1)
        till._node.stdout = Broken(till._node.stdout)
        self.assertRaises(KeyboardInterrupt, till.insert, "stock", "nails", 100, "")
        self.assertRaises(Ended, till.rows, "stock")
        self.assertEqual(self.till(1).rows("stock"), [("nails", 100, "")])


    def test_a_clash_for_which_there_is_no_memory(self):
        program = Path(self.folder, "program")
        program.write_text("""#!/bin/sh
while read -r line; do
    case "$line" in
    place) echo replica 1 version 0 pending 0 flight 0 ;;
    resend | push) echo refused Nothing ;;
    catch*) echo 03 ;;
    answer*) echo stopped 0 version 0 clash Memory ;;
    esac
    echo
done
""")
        program.chmod(0o700)
        with Replica("1.db", 1, STOCK, str(program)) as till:
            self.refuses("Memory", till.sync, lambda requests: ["15"])


class Hubs(Case):
    def setUp(self):
        super().setUp()
        self.at_hub = self.hub()
        self.north, self.south = self.till(1), self.till(2)
        for article in "glue", "nails", "saw", "tape":
            self.north.insert("stock", article, 100, "")
        self.assertEqual(self.north.sync(self.at_hub), Synced(0, 1, None))
        self.assertEqual(self.south.sync(self.at_hub), Synced(1, 1, None))

    def rest(self):
        for till in self.north, self.south, self.north:
            till.sync(self.at_hub)
        self.assertEqual(self.shown(self.north), self.shown(self.south))
        self.assertEqual({self.north.place(), self.south.place()}, {Place(len(self.at_hub.log()), 0, 0)})
        self.assertEqual(len(self.at_hub.log()), len(set(self.at_hub.log())))

    def test_what_is_pending_is_shown(self):
        self.south.update("stock", "nails", pieces=90)
        self.south.delete("stock", "saw")
        self.south.insert("stock", "rope", 1, None)
        shown = {change.operation: change for change in self.south.pending()}
        self.assertEqual(shown["update"], ("stock", "update", {"article": "nails", "pieces": 100}, {"pieces": 90}))
        self.assertEqual(shown["delete"], ("stock", "delete", {"article": "saw", "pieces": 100, "note": ""}, None))
        self.assertEqual(shown["insert"], ("stock", "insert", None, {"article": "rope", "pieces": 1, "note": None}))
        self.assertEqual(self.south.place(), Place(1, 3, 0))
        self.south.sync(self.at_hub)
        self.assertEqual((self.south.pending(), self.south.place()), ([], Place(2, 0, 0)))
        self.rest()

    def apart(self):
        """Both change the same rows: one in another column, one that meets another number, one that is gone, one that is there."""
        for till, pieces, note in (self.north, 80, {}), (self.south, 90, {}):
            till.update("stock", "nails", pieces=pieces)
        self.north.update("stock", "glue", note="dry")
        self.south.update("stock", "glue", pieces=3)
        self.north.update("stock", "saw", pieces=9)
        self.south.delete("stock", "saw")
        for till, pieces in (self.north, 1), (self.south, 2):
            till.insert("stock", "rope", pieces, "")
        self.north.sync(self.at_hub)

    def test_each_clash_is_shown_once(self):
        self.apart()
        shown = {}
        def decide(clash):
            self.assertNotIn(repr(clash), shown)
            shown[repr(clash)] = clash
            return keep_mine(clash)
        self.assertEqual(self.south.sync(self.at_hub, decide), Synced(1, 3, None))
        by = {clash.kind: clash for clash in shown.values()}
        self.assertEqual(len(shown), 3)
        self.assertEqual(by["data"], ("stock", "data", ("stock", "update", {"article": "nails", "pieces": 100}, {"pieces": 80}), {"article": "nails", "pieces": 90, "note": ""},
                                      ("stock", "update", {"article": "nails", "pieces": 100}, {"pieces": 90}), True, True))
        self.assertEqual(by["notfound"], ("stock", "notfound", ("stock", "update", {"article": "saw", "pieces": 100}, {"pieces": 9}), None,
                                          ("stock", "delete", {"article": "saw", "pieces": 100, "note": ""}, None), True, False))
        rope = {"article": "rope", "pieces": 2, "note": ""}
        self.assertEqual(by["conflict"], ("stock", "conflict", ("stock", "insert", None, {**rope, "pieces": 1}), rope, ("stock", "insert", None, rope), True, True))
        self.rest()
        self.assertEqual(sorted(self.north.rows("stock")), [("glue", 3, "dry"), ("nails", 90, ""), ("rope", 2, ""), ("tape", 100, "")])

    def test_theirs_may_be_taken(self):
        self.apart()
        self.south.sync(self.at_hub, take_theirs)
        self.rest()
        self.assertEqual(sorted(self.north.rows("stock")), [("glue", 3, "dry"), ("nails", 80, ""), ("rope", 1, ""), ("tape", 100, "")])

    def test_a_stop_takes_nothing_and_may_be_left(self):
        self.apart()
        wishes = [Wish.KEEP, Wish.STOP]
        told = self.south.sync(self.at_hub, lambda clash: wishes.pop(0))
        self.assertEqual((told.taken, told.version, type(told.stopped)), (0, 1, Clash))
        self.assertEqual(self.south.row("stock", "nails"), ("nails", 90, ""))
        def raises(clash):
            raise KeyError
        self.assertRaises(KeyError, self.south.sync, self.at_hub, raises)
        self.assertRaises(ValueError, self.south.sync, self.at_hub, lambda clash: Wish.TAKE)      # not lawful where the own row is gone
        self.assertRaises(ValueError, self.south.sync, self.at_hub, lambda clash: "keep")
        self.assertEqual(self.south.place().version, 1)
        self.south.sync(self.at_hub)
        self.rest()

    def test_a_stop_in_the_middle_of_entries_keeps_those_before(self):
        for pieces in 1, 2, 3:
            self.north.update("stock", "nails", pieces=pieces)
            self.north.sync(self.at_hub)
        self.south.update("stock", "nails", pieces=90)
        pull = self.at_hub.ask("02%016x%08x" % (1, 10))
        def entries(requests):
            return [*self.at_hub(requests[:-1]), pull]
        shown, wishes = [], [Wish.KEEP, Wish.STOP]
        def decide(clash):
            shown.append(clash.theirs.new["pieces"])
            return wishes.pop(0) if wishes else keep_mine(clash)
        told = self.south.sync(entries, decide)
        self.assertEqual((told.taken, told.version, told.stopped.theirs.new), (1, 2, {"pieces": 2}))
        self.assertEqual(self.south.row("stock", "nails"), ("nails", 90, ""))
        self.assertEqual(self.south.sync(entries, decide), Synced(2, 5, None))
        self.assertEqual(shown, [1, 2, 2, 3])
        self.rest()
        self.assertEqual(self.north.row("stock", "nails"), ("nails", 90, ""))

    def test_an_edit_while_a_clash_is_decided_is_shown(self):
        self.apart()
        shown = []
        def decide(clash):
            shown.append(clash)
            if clash.table == "stock" and clash.kind == "data" and len([clash for clash in shown if clash.kind == "data"]) == 1:
                self.south.update("stock", "nails", pieces=91)
                self.assertEqual(self.south.row("stock", "nails"), ("nails", 91, ""))
            return keep_mine(clash)
        self.south.sync(self.at_hub, decide)
        self.assertEqual([clash.row["pieces"] for clash in shown if clash.kind == "data"], [90, 91])
        self.assertEqual(len(shown), 4)
        self.rest()
        self.assertEqual(self.north.row("stock", "nails"), ("nails", 91, ""))

    def test_lost_requests_and_answers(self):
        self.south.update("stock", "nails", pieces=90)
        def away(requests):
            raise OSError("no network")
        def lost(requests):
            self.at_hub(requests)
            raise OSError("the answer was lost")
        for exchange in away, lost, lost, away:
            self.assertRaises(OSError, self.south.sync, exchange)
            self.assertEqual(self.south.place().flight, 1)
        self.south.update("stock", "nails", pieces=91)
        self.assertEqual(self.south.place(), Place(1, 1, 1))
        self.assertEqual(self.south.sync(self.at_hub).version, 3)
        self.assertEqual(self.at_hub.log(), [(1, 1), (2, 1), (2, 2)])
        self.rest()

    def test_a_push_that_comes_late_goes_again(self):
        self.south.update("stock", "glue", pieces=90)
        late = []
        def overtaken(requests):
            if not late:
                late.append(requests)
                self.north.update("stock", "nails", pieces=80)
                self.north.sync(self.at_hub)
            return self.at_hub(requests)
        self.assertEqual(self.south.sync(overtaken), Synced(1, 3, None))
        self.assertEqual(self.at_hub.log(), [(1, 1), (1, 2), (2, 2)])
        self.rest()

    def test_what_the_hub_refuses(self):
        self.north.update("stock", "saw", pieces=9)
        self.north.sync(self.at_hub)
        self.south.update("stock", "glue", pieces=3)
        for code, name in ("2c", "hub refused 44 Device"), ("2b", "hub refused 43 Full"), ("63", "hub refused 99"):
            with self.assertRaises(HubRefused) as told:
                self.south.sync(lambda requests: ["13" + code, *self.at_hub(requests[1:])])
            self.assertEqual((str(told.exception), told.exception.code), (name, int(code, 16)))
            self.assertEqual(self.south.row("stock", "saw"), ("saw", 9, ""))    # what the hub gave is taken all the same
        self.rest()
        self.assertRaises(HubRefused, self.south.sync, lambda requests: ["1328"])

    def test_answers_that_are_none(self):
        self.south.update("stock", "glue", pieces=3)
        for wrong in [], ["12"], ["", ""], ["12", "x"], ["1", "12"], ["12\n", "14"], ["12 s", "14"], ["12"] * 3:
            self.assertRaises(OSError, self.south.sync, lambda requests: wrong)
        for wrong in ["12", "14"], ["ff", "ff"]:
            self.assertRaises(Refused, self.south.sync, lambda requests: wrong)
        nothing = "14%016x%08x" % (1, 0)
        self.assertRaises(OSError, self.south.sync, lambda requests: ["12" + "0" * 15 + "1", nothing])     # late, and nothing came before
        self.assertRaises(OSError, self.south.sync, lambda requests: ["11000000090000000000000001" + "0" * 16, nothing])
        self.south.sync(lambda requests: self.at_hub(requests[::-1])[::-1] if len(requests) > 1 else self.at_hub(requests))
        self.rest()
        self.assertEqual(self.at_hub.log(), [(1, 1), (2, 1)])

    def test_a_log_that_is_another(self):
        other = self.hub()
        with self.assertRaises(HubRefused) as told:
            self.south.sync(other)
        self.assertEqual(told.exception.code, 40)
        stranger = self.till(3)
        for number in 1, 2:
            stranger.insert("stock", f"x{number}", 1, "")
            stranger.sync(other)
        stranger.update("stock", "x1", pieces=2)
        stranger.sync(other)
        self.assertRaises(BadEntry, self.south.sync, lambda requests: [other.ask("02%016x%08x" % (2, 10)).replace("14" + "0" * 15 + "2", "14" + "0" * 15 + "1", 1)])
        self.assertEqual(self.south.place(), Place(1, 0, 0))

    def test_a_log_of_many_entries(self):
        at_once, replica.AT_ONCE = replica.AT_ONCE, 3
        try:
            for number in range(8):
                (self.north, self.south)[number % 2].insert("stock", f"x{number}", number, "")
                (self.north, self.south)[number % 2].sync(self.at_hub)
            self.assertEqual(self.till(3).sync(self.at_hub), Synced(9, 9, None))
        finally:
            replica.AT_ONCE = at_once

    def test_one_thread_edits_while_another_syncs(self):
        wrong = []
        def edits(till):
            try:
                for number in range(30):
                    till.insert("stock", f"{till.columns is self.north.columns} {number}", number, "")
                    till.rows("stock")
            except BaseException as error:
                wrong.append(error)
        threads = [threading.Thread(target=edits, args=(till,)) for till in (self.north, self.south)]
        for thread in threads:
            thread.start()
        turn = threading.Lock()
        def exchange(requests):
            with turn:
                return self.at_hub(requests)
        widen(exchange, "stock", 5)
        while any(thread.is_alive() for thread in threads):
            for till in self.north, self.south:
                till.sync(exchange)
        for thread in threads:
            thread.join()
        self.assertEqual(wrong, [])
        self.rest()
        self.assertEqual(len(self.north.rows("stock")), 64)

    def test_drawn_work(self):
        draw = random.Random(int(os.environ.get("SEED", "1")))
        tills, width = [1, 2], 3
        replicas = {1: self.north, 2: self.south}
        def lossy(requests):
            if draw.random() < 0.2:
                raise OSError
            answers = self.at_hub(requests)
            if draw.random() < 0.2:
                raise OSError
            return answers
        for _ in range(150):
            id = draw.choice(tills)
            article, pieces = f"a{draw.randrange(6)}", draw.randrange(100)
            till = replicas[id]
            edit = draw.choice([lambda: till.insert("stock", article, pieces, ""), lambda: till.update("stock", article, pieces=pieces),
                                lambda: till.update("stock", article, note=str(pieces)), lambda: till.delete("stock", article),
                                lambda: till.update("stock", article, note=None, **{name: pieces for name in till.columns["stock"] if name == "shelf"})])
            try:
                edit()
            except Refused:
                pass
            if draw.random() < 0.4:
                try:
                    replicas[id].sync(lossy, lambda clash: draw.choice([keep_mine(clash), take_theirs(clash), Wish.STOP]))
                except OSError:
                    pass
            if draw.random() < 0.05:
                width += 1
                widen(self.at_hub, "stock", width)
            if draw.random() < 0.05:
                replicas[id]._node.kill()
                self.assertRaises(Ended, replicas[id].place)
                replicas[id] = self.till(id, draw.choice([STOCK, LATER]))
        self.north, self.south = replicas[1], replicas[2]
        self.rest()
        self.assertEqual({len(row + row.more) for row in self.north.rows("stock")}, {width})


class Wider(Case):
    """Two tills and a hub that gives their table a fourth column. The north's program knows the first three."""
    def setUp(self):
        super().setUp()
        self.at_hub = self.hub()
        self.north, self.south = self.till(1), self.till(2)
        for article in "nails", "saw":
            self.north.insert("stock", article, 100, "")
        self.north.sync(self.at_hub)
        self.south.sync(self.at_hub)

    def test_who_has_fewer_names_goes_on(self):
        self.north.update("stock", "nails", pieces=90)
        self.south.insert("stock", "glue", 4, "")
        self.south._tell("push")
        self.south.update("stock", "saw", note="blunt")
        self.assertEqual(widen(self.at_hub, "stock", 4), 2)
        self.north.insert("stock", "rope", 1, None)             # before it has heard of the column
        self.assertEqual(self.north.sync(self.at_hub), Synced(1, 3, None))
        self.assertEqual(self.south.sync(self.at_hub), Synced(2, 4, None))
        self.north.sync(self.at_hub)
        for till in self.north, self.south:
            rows = till.rows("stock")
            self.assertEqual(sorted(rows), [("glue", 4, ""), ("nails", 90, ""), ("rope", 1, None), ("saw", 100, "blunt")])
            self.assertEqual([row.more for row in rows], [(None,)] * 4)

        self.south.close()
        self.south = self.till(2, WIDE)
        self.south.update("stock", "nails", shelf=7)
        self.south.insert("stock", "tape", 8, "", "high")
        self.south.sync(self.at_hub)
        self.north.sync(self.at_hub)
        row = self.north.row("stock", "nails")
        self.assertEqual((row, row.more, len(row)), (("nails", 90, ""), (7,), 3))
        for article, pieces, note in self.north.rows("stock"):
            self.assertIs(type(pieces), int)
        self.north.update("stock", "nails", pieces=80)
        self.north.edits([insert("stock", "oil", 2, ""), update("stock", "tape", note="red"), delete("stock", "glue")])
        shown = {change.operation + str((change.old or change.new)["article"]): change for change in self.north.pending()}
        self.assertEqual(shown["insertoil"].new, {"article": "oil", "pieces": 2, "note": ""})
        self.assertEqual((shown["insertoil"].new.more, shown["deleteglue"].old.more, shown["updatenails"].new.more), ({3: None}, {3: None}, {}))
        for edit in insert("stock", "oil", 2), insert("stock", "oil", 2, "", 1), delete("stock", "nails", 1):
            refused = self.refuses("Width", self.north.edits, [delete("stock", "saw"), edit])
            self.assertEqual(refused.index, 1)
        self.refuses("Exists", self.north.insert, "stock", "oil", 2, "")
        self.north.sync(self.at_hub)
        self.south.sync(self.at_hub)
        self.assertEqual(self.south.row("stock", "nails"), ("nails", 80, "", 7))
        self.assertEqual((self.south.row("stock", "oil"), self.south.row("stock", "tape")), (("oil", 2, "", None), ("tape", 8, "red", "high")))
        self.assertEqual(self.shown(self.north), self.shown(self.south))

    def test_a_name_may_come_before_its_column(self):
        self.north.close()
        self.north = self.till(1, LATER)
        self.assertEqual(sorted(self.north.rows("stock")), [("nails", 100, "", None), ("saw", 100, "", None)])
        self.north.insert("stock", "glue", 4, "")
        self.north.insert("stock", "rope", 1, "", None)
        self.north.update("stock", "nails", pieces=90)
        self.assertIn("no column shelf yet", str(self.refuses("Width", self.north.insert, "stock", "oil", 1, "", 7)))
        self.refuses("Width", self.north.update, "stock", "nails", shelf=7)
        self.refuses("Width", self.north.insert, "stock", "oil", 1)
        self.assertEqual(self.refuses("Width", self.north.edits, [delete("stock", "saw"), update("stock", "nails", pieces=1, shelf=7)]).index, 1)
        self.assertIn({"article": "glue", "pieces": 4, "note": "", "shelf": None}, [change.new for change in self.north.pending()])
        self.assertIn({"pieces": 90}, [change.new for change in self.north.pending()])
        widen(self.at_hub, "stock", 4)
        self.north.sync(self.at_hub)
        self.north.update("stock", "nails", shelf=7)
        self.north.insert("stock", "oil", 1, "", "low")
        self.north.sync(self.at_hub)
        self.assertEqual(sorted(self.north.rows("stock"), key=str)[1:3], [("nails", 90, "", 7), ("oil", 1, "", "low")])
        # A new till begins with the first columns, since the log does; so it has to know which came later.
        third = self.till(3, LATER)
        self.assertEqual(third.sync(self.at_hub).version, 4)
        self.assertEqual(third.rows("stock"), self.north.rows("stock"))
        self.assertRaises(BadEntry, self.till(4, WIDE).sync, self.at_hub)
        for tables in STOCK, LATER, WIDE:
            third.close()
            third = self.till(3, tables)
            self.assertEqual(self.shown(third), self.shown(self.north))
        third.close()
        self.refuses("Mismatch", self.till, 3, {"stock": ["article*", "pieces", "note", "shelf", "weight"]})
        self.assertRaises(ValueError, self.till, 5, {"stock": ["article*", "pieces+", "note"]})

    def test_clashes_of_wide_rows(self):
        widen(self.at_hub, "stock", 4)
        self.south.sync(self.at_hub)
        self.south.close()
        self.south = self.till(2, WIDE)
        self.south.update("stock", "nails", shelf=7)
        self.south.update("stock", "saw", pieces=9, shelf=5)
        self.south.insert("stock", "glue", 4, "", "low")
        self.south.sync(self.at_hub)
        self.north.delete("stock", "nails")
        self.north.update("stock", "saw", pieces=8)
        self.north.insert("stock", "glue", 5, "")
        shown = {}
        def decide(clash):
            shown[clash.kind] = clash
            return keep_mine(clash) if clash.kind != "conflict" else take_theirs(clash)
        self.north.sync(self.at_hub, decide)
        gone, met, there = shown["notfound"], shown["data"], shown["conflict"]
        self.assertEqual((gone.theirs.old, gone.theirs.old.more, gone.theirs.new, gone.theirs.new.more), ({"article": "nails"}, {3: None}, {}, {3: 7}))
        self.assertEqual((gone.mine.old["article"], gone.mine.old.more), ("nails", {3: None}))
        self.assertEqual((met.theirs.new, met.theirs.new.more, met.mine.new, met.mine.new.more), ({"pieces": 9}, {3: 5}, {"pieces": 8}, {}))
        self.assertEqual((met.row, met.row.more, met.may_keep), ({"article": "saw", "pieces": 8, "note": ""}, {3: None}, False))
        self.assertEqual((there.theirs.new, there.theirs.new.more, there.mine.new.more), ({"article": "glue", "pieces": 4, "note": ""}, {3: "low"}, {3: None}))
        self.south.sync(self.at_hub)
        self.assertEqual(self.shown(self.north), self.shown(self.south))
        self.assertEqual(sorted(self.south.rows("stock"), key=str), [("glue", 4, "", "low"), ("saw", 9, "", 5)])

    def test_many_columns_and_several_times(self):
        for width in 5, 6, 2000:
            widen(self.at_hub, "stock", width)
        self.north.sync(self.at_hub)
        self.north.insert("stock", "glue", 4, "")
        self.north.update("stock", "nails", pieces=90)
        self.assertEqual([len(row.more) for row in self.north.rows("stock")], [1997] * 3)
        self.assertEqual(self.north._width, {"stock": 2000})

    def test_what_a_hub_says_of_wider_tables(self):
        for table, width in ("stock", 3), ("stock", 2), ("stock", 2001), ("shop", 4):
            with self.assertRaises(HubRefused) as told:
                widen(self.at_hub, table, width)
            self.assertEqual(str(told.exception), "hub refused 46 BadWiden")
        def overtaken(requests):
            if self.at_hub.asked[-1:] != [requests] and len(self.at_hub.log()) == 1 and requests[0][18:34] != "0" * 16:
                self.north.update("stock", "nails", pieces=90)
                self.north.sync(self.at_hub)
            return self.at_hub(requests)
        self.assertEqual(widen(overtaken, "stock", 4), 3)
        self.assertEqual(widen(self.hub("empty:1"), "empty", 2), 1)
        for wrong in "", "11", "12", "12" + "0" * 16, "1", "14" + "0" * 24, "13":
            self.assertRaises(OSError, widen, lambda requests: [wrong], "stock", 5)


class OverHttp(Case):
    def test_two_tills_and_a_gateway(self):
        tokens = os.path.join(self.folder, "tokens")
        north_token, south_token, admin_token = "the-token-of-the-north", "the-token-of-the-south", "the-token-of-the-admin"
        Path(tokens).write_text(f"1 {north_token}\n2 {south_token}\nadmin {admin_token}\n")
        gateway = subprocess.Popen([sys.executable, "-B", str(GATEWAY), "0", tokens, SYNC, "hub", "--file", os.path.join(self.folder, "hub.db"), "stock:100"],
                                   stdout=subprocess.PIPE, stderr=subprocess.DEVNULL, text=True)
        self.addCleanup(gateway.stdout.close)
        self.addCleanup(gateway.wait)
        self.addCleanup(gateway.terminate)
        url = f"http://127.0.0.1:{gateway.stdout.readline().split()[1]}"
        north, south = self.till(1), self.till(2)
        north.insert("stock", "nails", 100, "näh")
        self.assertEqual(north.sync(http_exchange(url, north_token)), Synced(0, 1, None))
        self.assertEqual(south.sync(http_exchange(url + "/", south_token)), Synced(1, 1, None))
        south.update("stock", "nails", pieces=90)
        for token, status in (north_token, 403), ("nobody", 401):
            with self.assertRaisesRegex(OSError, f"the gateway says {status}: ."):
                south.sync(http_exchange(url, token))
        with self.assertRaisesRegex(OSError, "404"):
            south.sync(http_exchange(url + "/other", south_token))
        with self.assertRaisesRegex(OSError, "the gateway says 403: only the administrator"):
            widen(http_exchange(url, south_token), "stock", 4)
        self.assertEqual(widen(http_exchange(url, admin_token), "stock", 4), 2)
        with self.assertRaisesRegex(OSError, "the gateway says 403"):
            north.sync(http_exchange(url, admin_token))
        north.sync(http_exchange(url, north_token))
        self.assertEqual(north.row("stock", "nails").more, (None,))
        gateway.terminate()
        gateway.wait()
        self.assertRaises(OSError, south.sync, http_exchange(url, south_token))
        self.assertEqual(south.place(), Place(1, 0, 1))
        self.assertRaises(ValueError, http_exchange, "ftp://127.0.0.1/", "token")


if __name__ == "__main__":
    unittest.main()
