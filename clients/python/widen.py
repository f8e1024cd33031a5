"""Gives a table of a hub more columns, as its administrator:

    TOKEN=.. python3 widen.py URL TABLE WIDTH

At URL is hub/gateway.py, and TOKEN is its `admin` token. The new columns stand behind the others, and each row has NULL there. A till gets them with its next sync.
Where no answer came, run it again: it is refused with code 46 where the table has so many columns by now.
"""
from __future__ import annotations

import os, secrets, sys

from replica import Exchange, HubRefused, http_exchange


def widen(exchange: Exchange, table: str, width: int) -> int:
    """Has the hub give this table so many columns, and gives the version from which on it has them.

    A HubRefused with code 46 says that no table has this name, that it has as many columns already, or that none may have so many. An OSError says that no
    answer came, so that nothing is known."""
    name, number, base = table.encode(), secrets.randbits(63), 0
    while True:
        # At a base below the log's length the answer is the newest version, on which it is asked again.
        answer, = exchange([f"04{number:016x}{base:016x}{width:08x}{len(name):08x}{name.hex()}"])
        if answer[:2] == "11" and len(answer) == 42:
            return int(answer[26:], 16)
        if answer[:2] == "13" and len(answer) == 4:
            raise HubRefused(int(answer[2:], 16))
        if answer[:2] != "12" or len(answer) != 18 or int(answer[2:], 16) <= base:
            raise OSError(f"this is no answer of a hub: {answer!r:.80}")
        base = int(answer[2:], 16)


def main() -> None:
    if len(sys.argv) != 4 or not sys.argv[3].isdecimal() or int(sys.argv[3]) >= 1 << 32 or "TOKEN" not in os.environ:
        sys.exit("usage: TOKEN=.. python3 widen.py URL TABLE WIDTH")
    url, table, width = sys.argv[1:]
    try:
        version = widen(http_exchange(url, os.environ["TOKEN"]), table, int(width))
    except HubRefused as refused:
        sys.exit(f"{refused}: there is no table {table}, or it has as many columns" if refused.code == 46 else str(refused))
    except OSError as error:
        sys.exit(str(error))
    print(f"{table} has {width} columns from version {version} on")


if __name__ == "__main__":
    main()
