"""A replica in a file, for programs in Python: tables that are edited offline, and synced through a hub.

    till = Replica("till.db", 7, {"stock": ["article*", "pieces", "note"]})
    till.insert("stock", "nails", 100, "")
    till.update("stock", "nails", pieces=90)
    till.edits([insert("stock", "glue", 4, ""), delete("stock", "nails")])      # both or neither
    till.sync(http_exchange("http://127.0.0.1:8080/", token))
    for article, pieces, note in till.rows("stock"):
        print(article, pieces)

A column whose name ends in `*` is one of the key. A value is None, an int of 64 bits, a str or bytes. Prices are integers, as of cents.

A hub may give a table more columns, behind those that it has (widen.py). Who handed the first names alone goes on as before: a row that is inserted has
None in the further columns, an update leaves them, and `more` of a Row or of Columns has their values. A name that ends in `+` is that of a later column.
It may be handed before this replica has heard of the column: until then that is None, and to set it is refused as `Width`. A new file begins with the
columns without `+`, as the hub's log does.

A Replica drives one process, `sync node --follow`, which holds the file until `close`. What a call did is in the file when it returns. A call that is refused raises
the exception of that name (`Exists`, `Missing`, ..), and has changed nothing. Threads may share a Replica: one edits while another syncs.
"""
from __future__ import annotations

import enum, http.client, os, re, subprocess, threading, weakref
from typing import Any, Callable, Dict, Iterable, List, Mapping, NamedTuple, NoReturn, Optional, Sequence, Tuple, Union
from urllib.parse import quote, unquote, urlsplit

Value = Union[None, int, str, bytes]
Exchange = Callable[[List[str]], List[str]]     # requests to the hub in hex, and its answers in the same order

AT_ONCE = 1000          # entries that one catch asks for
HEX = re.compile("(?:[0-9A-Fa-f]{2})+")
CODES = {1: "Memory", 30: "UnknownTable", 31: "Shape", 40: "Ahead", 41: "Conflict", 43: "Full", 44: "Device", 46: "BadWiden"}


class Refused(Exception):
    """A call that was refused, and changed nothing. `index` says which of the list of `Replica.edits` was, from 0."""
    index: Optional[int] = None

    def __str__(self) -> str:
        return super().__str__() + ("" if self.index is None else f": edits[{self.index}]")


class NoTable(Refused): "There is no such table."
class Width(Refused): "There are too few or too many values, or one of a later column that isn't there yet."
class NullKey(Refused): "None stands in a key column."
class KeyColumn(Refused): "An update names a key column. Delete the row and insert another."
class Exists(Refused): "There is a row with this key."
class Missing(Refused): "There is no row with this key."
class Real(Refused): "A value is a float. Prices are integers, as of cents."
class Nothing(Refused): "There is nothing to push."
class TooLarge(Refused): "What is pending is too large for one push."
class Spent(Refused): "Each number of a push is used."
class BadEntry(Refused): "The hub's log doesn't go on from what this replica has. Was the hub's file replaced by an older copy?"
class Memory(Refused): "Memory was refused."
class Device(Refused): "The file can't be read or written, another program holds it, or it is no replica's."
class Mismatch(Refused): "The file is of another id, of other tables, or a hub's."
class Damaged(Refused): "The file was damaged."


class HubRefused(Refused):
    """The hub refused a request with this code (docs/FORMATS.md, 7). A push stays under way."""
    def __init__(self, code: int) -> None:
        super().__init__(f"hub refused {code} {CODES.get(code, '')}".rstrip())
        self.code = code


class Ended(Exception):
    """The program `sync` has ended. Open the file again: it holds what was done by then."""


def refusal(name: str) -> Refused:
    """The exception of this name."""
    return {kind.__name__: kind for kind in Refused.__subclasses__() if kind is not HubRefused}.get(name, Refused)(name)


class Edit(NamedTuple):
    """An edit for the list of `Replica.edits`, as `insert`, `update` and `delete` make it."""
    verb: str
    table: str
    values: Tuple[Value, ...]
    fields: Mapping[str, Value]


def insert(table: str, /, *values: Value) -> Edit:
    """Inserts a row, a value a column. Those of later columns may be left out."""
    return Edit("insert", table, values, {})


def update(table: str, /, *key: Value, **fields: Value) -> Edit:
    """Sets these columns of the row with this key."""
    return Edit("update", table, key, fields)


def delete(table: str, /, *key: Value) -> Edit:
    """Deletes the row with this key."""
    return Edit("delete", table, key, {})


class Row(Tuple[Value, ...]):
    """A row, a value a name. `more` has the values of the columns behind, for which no name was handed."""
    more: Tuple[Value, ...] = ()


class Columns(Dict[str, Value]):
    """Values by column. `more` has those of columns for which no name was handed, by their places in the row from 0."""
    more: Dict[int, Value]


class Change(NamedTuple):
    """A change of a row, by column: an `insert` has the `new` row, a `delete` the `old` one. An `update` has the key and the old values of what it changes, and their new ones."""
    table: str
    operation: str
    old: Optional[Columns]
    new: Optional[Columns]


class Clash(NamedTuple):
    """Another's change that meets an own one which the hub doesn't have yet. `row` is the own row, by column. `kind` is `data`, `notfound` or `conflict` (docs/FORMATS.md, 6)."""
    table: str
    kind: str
    theirs: Change
    row: Optional[Columns]
    mine: Change
    may_keep: bool
    may_take: bool


class Wish(enum.Enum):
    """What is done at a clash: the own change is kept, theirs is taken, or the sync stops before it."""
    KEEP = "k"
    TAKE = "t"
    STOP = "s"


def keep_mine(clash: Clash) -> Wish:
    """Keeps the own change wherever that is lawful."""
    return Wish.KEEP if clash.may_keep else Wish.TAKE


def take_theirs(clash: Clash) -> Wish:
    """Takes the other's change wherever that is lawful."""
    return Wish.TAKE if clash.may_take else Wish.KEEP


class Place(NamedTuple):
    """Where a replica stands: its version of the hub's log, and how many changes are pending and how many under way in a push."""
    version: int
    pending: int
    flight: int


class Synced(NamedTuple):
    """What a sync did: how many entries it took, the version it came to, and the clash at which it was wished to stop."""
    taken: int
    version: int
    stopped: Optional[Clash]


def to_word(value: Value) -> str:
    """A value as a word of a line."""
    if value is None:
        return "null"
    if isinstance(value, str):
        return "t=" + quote(value, "")
    if isinstance(value, bytes):
        return "x=" + value.hex()
    if isinstance(value, float):
        raise Real(f"Real: {value!r} is a float, and prices are integers, as of cents")
    if not isinstance(value, int):
        raise TypeError(f"{value!r} is not None, an int, a str or bytes")
    if not -1 << 63 <= value < 1 << 63:
        raise OverflowError(f"{value} has more than 64 bits")
    return str(int(value))


def from_word(word: str) -> Value:
    """The value that a word spells."""
    if word == "null":
        return None
    if word.startswith("x="):
        return bytes.fromhex(word[2:])
    return unquote(word[2:], errors="strict") if word.startswith("t=") else int(word)


def name_of(column: str) -> str:
    """A column's name without its mark."""
    return column[:-1] if column.endswith(("*", "+")) else column


def begun_with(table: str, columns: Sequence[str]) -> int:
    """How many columns a table began with: those behind them came later."""
    first = [column for column in columns if not column.endswith("+")]
    if list(columns[:len(first)]) != first:
        raise ValueError(f"{table}: a later column stands before another: {columns}")
    return len(first)


class Replica:
    """A replica in a file. Its id is a number below 4,294,967,295 that no other replica of the hub has or ever had. `program` is `sync`, or where it is."""

    def __init__(self, file: Union[str, "os.PathLike[str]"], id: int, tables: Mapping[str, Sequence[str]], program: str = "sync") -> None:
        # Of each table the columns, in order, and whether they are of the key; how many it began with, and how many it is known to have.
        self.columns = {table: {name_of(column): column.endswith("*") for column in columns} for table, columns in tables.items()}
        self._first = {table: begun_with(table, columns) for table, columns in tables.items()}
        self._width = dict(self._first)
        self._turn, self._syncing, self._made = threading.RLock(), threading.RLock(), 0     # how many edits were made
        words = [quote(table, "") + ":" + "".join("01"[is_key] for is_key in columns.values())[:self._first[table]] for table, columns in self.columns.items()]
        # A session of its own: Ctrl-C is for this program, which may go on.
        self._node = subprocess.Popen([program, "node", "--follow", os.path.abspath(file), str(id), *words], start_new_session=True,
                                      stdin=subprocess.PIPE, stdout=subprocess.PIPE, stderr=subprocess.PIPE)
        # Waits for the process's end also where nobody closes: until then it holds the file.
        self._end = weakref.finalize(self, end, self._node)
        self.place()

    def insert(self, table: str, /, *values: Value) -> None:
        """Inserts a row, a value a column. Those of later columns may be left out."""
        self._edit([insert(table, *values)])

    def update(self, table: str, /, *key: Value, **fields: Value) -> None:
        """Sets these columns of the row with this key."""
        self._edit([update(table, *key, **fields)])

    def delete(self, table: str, /, *key: Value) -> None:
        """Deletes the row with this key."""
        self._edit([delete(table, *key)])

    def edits(self, edits: Iterable[Edit]) -> None:
        """Makes these edits as one commit, in order: all or none. Each is refused as it would be alone, behind those before it, and the exception's `index` says which
        of the list it is, from 0. Words that no line could say, as too many values, are refused before the program sees any of the list."""
        made = list(edits)
        self._edit(made, [f"edits {len(made)}"])

    def rows(self, table: str) -> List[Row]:
        """All rows of a table, in the order of their keys' bytes (docs/FORMATS.md, 12)."""
        self._columns(table)
        return [self._row(table, line.split(" ")[2:]) for line in self._tell("rows " + quote(table, ""))]

    def row(self, table: str, /, *key: Value) -> Optional[Row]:
        """The row with this key, or None."""
        self._columns(table, key=key)
        for line in self._tell(" ".join(["row", quote(table, ""), *map(to_word, key)])):
            return self._row(table, line.split(" ")[2:])
        return None

    def pending(self) -> List[Change]:
        """The changes that no push has yet, one a row."""
        changes, table = [], ""
        for words in (line.split(" ") for line in self._tell("pending")):
            if words[0] == "table":
                table = unquote(words[1])
            else:
                changes.append(self._change(table, words))
        return changes

    def place(self) -> Place:
        """Where it stands."""
        words = self._tell("place")[0].split(" ")
        return Place(int(words[3]), int(words[5]), int(words[7]))

    def sync(self, exchange: Exchange, on_conflict: Callable[[Clash], Wish] = keep_mine) -> Synced:
        """Pushes what is pending and takes what others did, until nothing is left of either. `on_conflict` is shown each clash, and again where an edit changed it meanwhile.

        It may end by what `exchange` raises, as by an OSError without a network. Nothing is lost then: a push stays under way, the next sync sends it
        again, and the hub counts it once. What the hub refuses is raised as soon as what it gave is taken. Entries that were taken stay so.
        """
        with self._syncing:
            taken = 0
            while True:
                own = self._push()
                answers = exchange(own + self._tell(f"catch {AT_ONCE}"))
                if len(answers) != len(own) + 1 or not all(map(HEX.fullmatch, answers)):
                    raise OSError(f"these are no answers of a hub: {answers!r:.80}")
                heard = [self._hear(answer, on_conflict) for answer in answers]
                count, (_, told, stopped) = sum(count for count, _, _ in heard), heard[-1]
                taken += count
                for _, text, _ in heard:
                    if text.startswith("hub refused "):
                        raise HubRefused(int(text.split(" ")[2]))
                if stopped or not own and told.startswith("taken 0 "):
                    return Synced(taken, self.place().version, stopped)
                if count == 0 and not heard[0][1].startswith("accepted "):
                    raise OSError(f"the hub's answers lead nowhere: {answers!r:.80}")

    def close(self) -> None:
        """Lets the process end, and the file go."""
        with self._turn:
            self._end()

    def __enter__(self) -> Replica:
        return self

    def __exit__(self, *_: Any) -> None:
        self.close()

    # ---- below

    def _columns(self, table: str, row: Optional[Sequence[Value]] = None, key: Optional[Sequence[Value]] = None) -> Dict[str, bool]:
        """The columns of a table, to which this row or key belongs."""
        if table not in self.columns:
            raise NoTable(f"NoTable: {table}")
        columns = self.columns[table]
        keys = sum(columns.values())
        for values, least, most in (row, self._first[table], len(columns)), (key, keys, keys):
            if values is not None and not least <= len(values) <= most:
                raise Width(f"Width: {len(values)} values in place of {most}")
        return columns

    def _spell(self, verb: str, table: str, values: Sequence[Value], fields: Mapping[str, Value]) -> str:
        """The line of an edit."""
        columns = self._columns(table, **{"row" if verb == "insert" else "key": values})
        words = [to_word(value) for value in values]
        for column in fields:
            if column not in columns:
                raise TypeError(f"{table} has no column {column}")
            if columns[column]:
                raise KeyColumn(f"KeyColumn: {column}")
        if verb == "insert":
            words = self._as_wide(table, words, "null")
        elif verb == "update":
            key = iter(words)
            words = [next(key) if is_key else to_word(fields[column]) if column in fields else "-" for column, is_key in columns.items()]
            words = self._as_wide(table, words, "-")
        return " ".join(["edit", verb, quote(table, ""), *words])

    def _as_wide(self, table: str, words: List[str], empty: str) -> List[str]:
        """As many words as the table has columns: behind the named ones nothing is set."""
        wanted = max((place for place, word in enumerate(words, 1) if word != empty), default=0)
        if wanted > self._width[table] and not (self._has_grown(table) and wanted <= self._width[table]):
            raise Width(f"Width: {table} has no column {list(self.columns[table])[wanted - 1]} yet")
        width = self._width[table]
        return words[:width] + [empty] * (width - len(words))

    def _has_grown(self, table: str) -> bool:
        """Whether a table has more columns than it was known to have."""
        known = self._width[table]
        for line in self._tell("tables"):
            _, name, marks = line.split(" ")
            self._width[unquote(name)] = len(marks)
        return self._width[table] > known

    def _edit(self, edits: Sequence[Edit], front: Sequence[str] = ()) -> None:
        """Makes these edits, with a line before them where they are one commit. Where a table has got more columns meanwhile, they are spelled anew."""
        with self._turn:
            self._made += 1
            while True:
                lines = list(front)
                for index, edit in enumerate(edits):
                    try:
                        lines.append(self._spell(*edit))
                    except Refused as refused:
                        refused.index = index if front else None
                        raise
                try:
                    self._tell("\n".join(lines))
                    return
                except Width as refused:
                    if not self._has_grown(edits[refused.index or 0].table):
                        raise

    def _row(self, table: str, words: Sequence[str]) -> Row:
        """A row of the reply. A later column that isn't there yet is None."""
        names, values = len(self.columns[table]), [from_word(word) for word in words]
        row = Row(values[:names] + [None] * (names - len(values)))
        if len(values) > names:
            row.more = tuple(values[names:])
        return row

    def _push(self) -> List[str]:
        """The push under way, else what is pending as the next one, if there is either."""
        for line in "resend", "push":
            try:
                return self._tell(line)
            except Nothing:
                pass
        return []

    def _hear(self, answer: str, on_conflict: Callable[[Clash], Wish]) -> Tuple[int, str, Optional[Clash]]:
        """Tells an answer of the hub. The wish `s` stops before a clash that wasn't shown, and then the answer is told again with the wish for that. Gives how
        many entries were taken, what was told last, and the clash at which it was wished to stop."""
        taken, version, made, wishes = 0, "", 0, ""
        decided: List[Tuple[List[str], Wish]] = []
        while True:
            with self._turn:
                if made != self._made:
                    # An edit may have changed which clashes come. Those that come as they were shown aren't shown again.
                    made, wishes = self._made, ""
                told, = self._tell(f"answer {answer} {wishes}s")
            words = told.split(" ")
            if words[0] == "fault":
                raise refusal(words[1])
            if words[0] in ("taken", "stopped"):
                taken += int(words[1])
            if words[0] != "stopped":
                return taken, told, None
            if words[5:] == ["Memory"]:
                raise Memory("Memory")
            if words[3] != version:
                version, wishes, decided = words[3], "", []
            clash = self._clash(words[5:])
            wish = next((wish for shown, wish in decided if shown == words[5:]), None) or Wish(on_conflict(clash))
            if wish is Wish.STOP:
                return taken, told, clash
            if not (clash.may_keep if wish is Wish.KEEP else clash.may_take):
                raise ValueError(f"{wish} isn't lawful at {clash}")
            decided.append((words[5:], wish))
            wishes += wish.value

    def _named(self, table: str, words: Sequence[str], is_row: bool = True) -> Columns:
        """Values by column, of a row, or of what is told of one."""
        names = list(self.columns[table])
        told = [(place, from_word(word)) for place, word in enumerate(words) if word != "-"]
        named = Columns((names[place], value) for place, value in told if place < len(names))
        named.more = {place: value for place, value in told if place >= len(names)}
        if is_row:
            named.update((name, None) for name in names[len(words):])
        return named

    def _change(self, table: str, words: Sequence[str]) -> Change:
        """`insert FLAG VALUES`, `delete FLAG VALUES`, or `update FLAG OLD > NEW`."""
        if words[0] == "update":
            middle = len(words) // 2 + 1
            return Change(table, "update", self._named(table, words[2:middle], False), self._named(table, words[middle + 1:], False))
        row = self._named(table, words[2:])
        return Change(table, words[0], None if words[0] == "insert" else row, None if words[0] == "delete" else row)

    def _clash(self, words: Sequence[str]) -> Clash:
        """`KIND T CHANGE row VALUES own CHANGE lawful LETTERS`. A table may have one of these names, and no value is one of them."""
        table, row, own = unquote(words[1]), words.index("row", 2), words.index("own", 2)
        held = None if words[row + 1] == "-" else self._named(table, words[row + 1:own])
        theirs, mine = self._change(table, words[2:row]), self._change(table, words[own + 1:-2])
        return Clash(table, words[0], theirs, held, mine, "k" in words[-1], "t" in words[-1])

    def _tell(self, line: str) -> List[str]:
        """The reply, where it is neither `unread` nor `refused NAME`, nor `refused K NAME` of an edit among several."""
        told = self._ask(line)
        words = told[0].split(" ") if told else [""]
        if words[0] not in ("refused", "unread"):
            return told
        refused = refusal(words[-1])
        if len(words) == 3:
            refused.index = int(words[1]) - 1
        raise refused

    def _ask(self, line: str) -> List[str]:
        """The reply to a line, or to the lines of several edits. It ends with an empty line."""
        with self._turn:
            assert self._node.stdin and self._node.stdout
            if self._node.stdin.closed:
                raise Ended("closed")
            told: List[str] = []
            is_sent = False
            try:
                self._node.stdin.write((line + "\n").encode())
                self._node.stdin.flush()
                is_sent = True
                for text in iter(self._node.stdout.readline, b"\n"):
                    if not text.endswith(b"\n"):
                        self._fail()
                    told.append(text[:-1].decode())
            except BrokenPipeError:
                self._fail()
            except BaseException:
                # A line that was cut short must not be taken for a whole one, nor what is left of the reply for the next line's.
                if not is_sent:
                    self._node.kill()
                self._end()
                raise
            return told

    def _fail(self) -> NoReturn:
        """Raises why the process has ended."""
        assert self._node.stderr
        why = self._node.stderr.read().decode(errors="replace").removeprefix("sync: ").strip()
        self._end()
        refused = refusal(why)
        raise Ended(why or f"with status {self._node.returncode}") if type(refused) is Refused else refused


def end(node: "subprocess.Popen[bytes]") -> None:
    """Lets a process end, since its input ends."""
    for pipe in node.stdin, node.stdout, node.stderr:
        try:
            if pipe:
                pipe.close()
        except OSError:
            pass
    node.wait()


def http_exchange(url: str, token: str, timeout: float = 90.0) -> Exchange:
    """An exchange with a hub behind hub/gateway.py at this address, by this replica's token. Where the hub gives no answers it raises an OSError."""
    place = urlsplit(url)
    if place.scheme not in ("http", "https"):
        raise ValueError(f"{url} is no address of a gateway")
    connect = http.client.HTTPSConnection if place.scheme == "https" else http.client.HTTPConnection

    def exchange(requests: List[str]) -> List[str]:
        line = connect(place.hostname or "", place.port, timeout=timeout)
        try:
            line.request("POST", place.path or "/", "".join(request + "\n" for request in requests), {"Authorization": "Bearer " + token})
            reply = line.getresponse()
            text = reply.read().decode("ascii", "replace")
        except http.client.HTTPException as error:
            raise OSError(f"the gateway went away: {error!r}") from error
        finally:
            line.close()
        if reply.status != 200:
            raise OSError(f"the gateway says {reply.status}: {text.strip():.200}")
        return text.split()

    return exchange
