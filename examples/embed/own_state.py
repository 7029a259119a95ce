#!/usr/bin/env python3
"""A node that keeps its state in a database of its own: the items of a ledger in a SQLite file, and calls made over them.

    own_state.py FILE load < LEDGER     makes the file, from a ledger's line of hexadecimal digits
    own_state.py FILE run < CALLS       makes calls, of the lines that `avm propose` reads: a ledger, a header, and one call a line
    own_state.py FILE ends              prints how each call ended
    own_state.py FILE ledger            prints the file's items as a ledger's line

It shows how a program calls avm_c_attempt where no ledger stands in memory. Each call is made in one transaction of the database:
the items that it looks at are looked up, what it writes is written back, and so is how it ended, under the call's number. A process
that is killed leaves all of a call or nothing of it. So `run` loads the ledger where the file is new, and else goes on behind the
last call that was made: none is lost, and none is made twice.

It needs python/avm.py on the path, and the library, which AVM_LIBRARY names. From the top of the repository:

    PYTHONPATH=python AVM_LIBRARY=./libavm_c.so python3 examples/embed/own_state.py counter.db run < examples/counter/counter.calls

--synchronous is SQLite's, FULL where nothing is said. With NORMAL the last calls may be gone after a loss of power; `run` then makes
them again. --kill N with --seed S is for tests: the process kills itself right before one of its next N statements to the database.
"""

import argparse
import hashlib
import os
import random
import signal
import sqlite3
import sys
from typing import Dict, List, Optional, Sequence, Tuple

from avm import ABSENT, Avm, AvmError, Call, Items, Ledger, NoCall

# The first byte of an item, by docs/FORMATS.md.
APPLICATION, COUNTS, KEY, LOCAL_STATE = b"\1", b"\2", b"\3", b"\4"
# A guess that has grown beyond so many items is dropped.
MOST_GUESSED = 16

TABLES = (
    "CREATE TABLE items (item BLOB PRIMARY KEY, value BLOB NOT NULL) WITHOUT ROWID",
    "CREATE TABLE made (number INTEGER PRIMARY KEY, ending TEXT NOT NULL)",
)


class Guesses:
    """Which items a call will look at: those of the last call of its application, with this call's accounts for that one's.

    An item too many costs a look-up, and one that is missing costs another attempt.
    """

    def __init__(self) -> None:
        self.last: Dict[int, Tuple[List[bytes], List[bytes]]] = {}

    def of(self, application: int, accounts: Sequence[bytes]) -> List[bytes]:
        before, items = self.last.get(application, ([], []))
        changed = dict(zip(before, accounts))

        def moved(item: bytes) -> bytes:
            return LOCAL_STATE + changed.get(item[1:33], item[1:33]) + item[33:] if item[:1] == LOCAL_STATE else item

        return [moved(item) for item in items]

    def learn(self, application: int, accounts: List[bytes], items: List[bytes]) -> None:
        self.last[application] = accounts, items if len(items) <= MOST_GUESSED else []


def parties(call: bytes) -> Tuple[int, List[bytes]]:
    """The application and the accounts of a call. Bytes that are no call name none; what is wrong with them is for the machine to say."""
    try:
        return Call(call).parties()
    except ValueError:
        return 0, []


class State:
    """The items of a ledger in a file, and how each call ended that was made over them."""

    def __init__(self, file: str, machine: Avm, synchronous: str = "FULL", guesses: Optional[Guesses] = None) -> None:
        self.machine, self.guesses, self.attempts = machine, guesses, 0
        # Transactions are begun here, and not by the module.
        self.database = sqlite3.connect(file, isolation_level=None)
        self.database.execute("PRAGMA journal_mode = WAL")
        self.database.execute(f"PRAGMA synchronous = {synchronous}")

    def is_new(self) -> bool:
        return self.database.execute("SELECT count(*) FROM sqlite_master").fetchone() == (0,)

    def load(self, ledger: bytes) -> None:
        """Makes the tables, with the items of a ledger. What was loaded stands as the call 0."""
        test(self.machine, ledger)
        with self.database:
            self.database.execute("BEGIN IMMEDIATE")
            for table in TABLES:
                self.database.execute(table)
            self.database.executemany("INSERT INTO items VALUES (?, ?)", Ledger(ledger).items().items())
            self.database.execute("INSERT INTO made VALUES (0, ?)", (loaded(ledger),))

    def made(self) -> List[str]:
        """How the calls ended, by their numbers. In front of them stands what was loaded."""
        return [ending for (ending,) in self.database.execute("SELECT ending FROM made ORDER BY number")]

    def ledger(self) -> bytes:
        """The ledger that has the items of the file."""
        ledger = Ledger.of_items(dict(self.database.execute("SELECT item, value FROM items")))
        test(self.machine, ledger.encoded)
        return ledger.encoded

    def make(self, number: int, header: bytes, call: bytes) -> None:
        """Makes the call of this number. Where another process has made it meanwhile, that is an error, and nothing is written."""
        with self.database:
            # From here on nobody else writes to the file, so what is looked up stays until the end.
            self.database.execute("BEGIN IMMEDIATE")
            try:
                ending = self.attempt(header, call)
            except NoCall as refused:
                ending = str(refused)
            self.database.execute("INSERT INTO made VALUES (?, ?)", (number, ending))

    def attempt(self, header: bytes, call: bytes) -> str:
        """Attempts a call over the items that are guessed, once more for each other that it looks at, and writes what it writes."""
        named = parties(call)
        known = {item: self.value(item) for item in self.guesses.of(*named)} if self.guesses else {}
        while True:
            attempt = self.machine.attempt(header, call, Items.of(known))
            self.attempts += 1
            if attempt.needs is None:
                break
            known[attempt.needs] = self.value(attempt.needs)
        if self.guesses:
            self.guesses.learn(*named, list(known))
        assert attempt.end and attempt.writes
        for item, value in attempt.writes.values().items():
            self.put(item, value)
        return attempt.end.named

    def value(self, item: bytes) -> bytes:
        found = self.database.execute("SELECT value FROM items WHERE item = ?", (item,)).fetchone()
        return found[0] if found else ABSENT

    def put(self, item: bytes, value: bytes) -> None:
        if value != ABSENT:
            self.database.execute("REPLACE INTO items VALUES (?, ?)", (item, value))
            return
        self.database.execute("DELETE FROM items WHERE item = ?", (item,))
        if item[:1] == APPLICATION:
            # Its counts and its keys go with it, and no item that is written says so. What accounts have in it stays, until each
            # clears that by a call.
            behind = (int.from_bytes(item[1:], "big") + 1).to_bytes(8, "big")
            for kind in (COUNTS, KEY):
                self.database.execute("DELETE FROM items WHERE item >= ? AND item < ?", (kind + item[1:], kind + behind))


def loaded(ledger: bytes) -> str:
    return f"loaded {hashlib.sha256(ledger).hexdigest()}"


def test(machine: Avm, ledger: bytes) -> None:
    """Has the machine read a ledger, below a block without calls. Bytes that are none are a `NoLedger`."""
    digest = hashlib.sha256(ledger).digest()
    block = b"AVMB\2\3" + digest + bytes(40) + bytes(4) + digest
    machine.replay(ledger, block + hashlib.sha256(block).digest()).agreed()


def kill_within(database: sqlite3.Connection, count: int, seed: Optional[int]) -> None:
    """Has this process killed right before one of the next statements to the database, chosen by the seed among so many."""
    left = random.Random(seed).randrange(count)

    def pass_one(_statement: str) -> None:
        nonlocal left
        if left == 0:
            os.kill(os.getpid(), signal.SIGKILL)
        left -= 1

    database.set_trace_callback(pass_one)


def run(state: State, lines: Sequence[bytes]) -> None:
    """Makes the calls that were not made yet, and tells how many those are."""
    if len(lines) < 2:
        raise ValueError("the input has to be the lines of a ledger, a header and calls")
    ledger, header, *calls = lines
    if state.is_new():
        state.load(ledger)
    first, *endings = state.made()
    if first != loaded(ledger):
        raise ValueError("the file was made of another ledger")
    for number in range(len(endings), len(calls)):
        state.make(number + 1, header, calls[number])
    print(f"{len(calls[len(endings) :])} calls in {state.attempts} attempts")


def options() -> argparse.Namespace:
    parser = argparse.ArgumentParser(description=__doc__, formatter_class=argparse.RawDescriptionHelpFormatter)
    parser.add_argument("file", metavar="FILE")
    parser.add_argument("command", choices=("load", "run", "ends", "ledger"))
    parser.add_argument("--synchronous", choices=("OFF", "NORMAL", "FULL"), default="FULL")
    parser.add_argument("--kill", type=int, metavar="N")
    parser.add_argument("--seed", type=int, metavar="S")
    return parser.parse_args()


def main(asked: argparse.Namespace) -> None:
    state = State(asked.file, Avm(), asked.synchronous, Guesses())
    lines = [bytes.fromhex(line) for line in sys.stdin.read().split()] if asked.command in ("load", "run") else []
    if asked.kill:
        kill_within(state.database, asked.kill, asked.seed)
    if asked.command == "load":
        (ledger,) = lines
        state.load(ledger)
    elif asked.command == "run":
        run(state, lines)
    elif asked.command == "ledger":
        print(state.ledger().hex())
    else:
        for number, ending in enumerate(state.made()[1:], 1):
            print(number, ending)


if __name__ == "__main__":
    try:
        main(options())
    except (AvmError, ValueError, sqlite3.Error) as error:
        sys.exit(f"own_state.py: {error}")
