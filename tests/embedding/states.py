#!/usr/bin/env python3
"""states.py LIBRARY AVM: examples/embed/own_state.py, which keeps a ledger's items in a SQLite file, makes calls as a node would.

The calls of examples/, creations and deletions, and 4,096 transfers between 64 holders are made, each list over a file of its own. How
the calls end, and the ledger that the file has then, are put together to a block: by its bytes it is the one that `avm propose` makes
of the same lines by one worker. The ledger is the one that `avm state` gives.

The first 1,024 transfers are also made by processes that are killed: fifty times right before a statement to the database, by a fixed
seed, and over another file time and again at any moment of their work, until one comes to the end. After each kill a copy of the file
has the items of the ledger that `avm state` gives behind the last call that was made, and no call that was made is missing.

    states.py LIBRARY AVM --measure      by hand: calls a second with so many items in the file, as a table
"""

import hashlib
import os
import random
import re
import runpy
import shutil
import signal
import sqlite3
import statistics
import subprocess
import sys
import tempfile
import time
from pathlib import Path

TOP = Path(__file__).resolve().parent.parent.parent
sys.path[:0] = [str(TOP / "examples/embed"), str(TOP / "examples"), str(TOP / "tests/embedding")]
import attempts  # noqa: E402
import avm  # noqa: E402
import own_state  # noqa: E402
import encode  # noqa: E402

SPEED = runpy.run_path(str(TOP / "tests/speed"), run_name="speed")
SEED, KILLS, STATEMENTS = 20261129, 50, 300
TRANSFERS, KILLED_TRANSFERS = 4096, 1024
ANN, BOB, CAT = b"\xaa" * 32, b"\xbb" * 32, b"\xcc" * 32
NO_OP, OPT_IN, CLEAR, DELETE = 0, 1, 3, 5
EMPTY = encode.u64(1) + bytes(8)
# A contract that approves each call. Its creation writes keys whose order by length is not their order by bytes.
KEYS = """#pragma version 2
txn ApplicationID
bnz end
byte "b"
int 7
app_global_put
byte "aa"
byte "text"
app_global_put
byte 0x
int 8
app_global_put
byte "abc"
txn Sender
app_global_put
end:
int 1
"""


class Programs:
    """The library, the program `avm`, and own_state.py over the library."""

    def __init__(self, library, program):
        self.library, self.program = library, program

    def avm(self, words, lines):
        given = lines.encode() if isinstance(lines, str) else "".join(line.hex() + "\n" for line in lines).encode()
        done = subprocess.run([self.program, *words], input=given, capture_output=True, check=True)
        return [bytes.fromhex(line) for line in done.stdout.decode().splitlines()]

    def own(self, file, *words, lines=()):
        """A process of own_state.py, which waits for nothing more."""
        with tempfile.TemporaryFile() as given:
            given.write("".join(line.hex() + "\n" for line in lines).encode())
            given.seek(0)
            environment = {**os.environ, "AVM_LIBRARY": self.library, "PYTHONPATH": str(TOP / "python")}
            command = [sys.executable, TOP / "examples/embed/own_state.py", file, *words]
            return subprocess.Popen(command, stdin=given, stdout=subprocess.PIPE, stderr=subprocess.PIPE, env=environment, text=True)

    def said(self, file, *words, lines=()):
        process = self.own(file, *words, lines=lines)
        out, wrong = process.communicate()
        assert process.returncode == 0 and not wrong, f"own_state.py {words} ends with {process.returncode}: {wrong}"
        return out


class Listed:
    """A list of calls over a ledger, and the block that `avm propose` makes of them by one worker.

    Whether SQLite waits for the disk after each call makes no difference to a process that is killed.
    """

    def __init__(self, programs, ledger, header, calls, synchronous="FULL"):
        self.programs, self.lines = programs, [ledger, header, *calls]
        self.words = ["run", "--synchronous", synchronous]
        self.ledger, self.header, self.calls = ledger, header, calls
        answered = programs.avm(["propose", "--workers", "1"], self.lines)
        assert len(answered) == 1, "a call is left out"
        (self.block,) = answered

    def first(self, count):
        return Listed(self.programs, self.ledger, self.header, self.calls[:count], self.words[-1])

    def after(self, count):
        """The ledger after so many calls."""
        return self.programs.avm(["state", "--at", str(count)], [self.ledger, self.block])[0]

    def block_of(self, endings, ledger):
        """The block whose calls end so, and lead to this ledger."""
        entries = [encode.u64(at) + call + encode.outcome(ending) for at, (call, ending) in enumerate(zip(self.calls, endings, strict=True), 1)]
        body = b"AVMB\2\3" + encode.digest(self.ledger) + self.header + encode.listed(encode.u32, entries) + encode.digest(ledger)
        return body + encode.digest(body)

    def look_at_end(self, file):
        """All calls were made, each once, in their order."""
        endings = [line.split(" ", 1) for line in self.programs.said(file, "ends").splitlines()]
        assert [number for number, _ in endings] == [str(at) for at in range(1, len(self.calls) + 1)], "other calls were made"
        ledger = bytes.fromhex(self.programs.said(file, "ledger"))
        assert ledger == self.after(len(self.calls)), "the ledger is another than `avm state` gives"
        assert self.block_of([ending for _, ending in endings], ledger) == self.block, "the block is another than `avm propose` makes"
        assert items_of(file)[0] == attempts.table_of(ledger), "the file has items that the ledger has not"

    def make(self, file):
        """Makes the calls in one go; gives how many attempts that took."""
        said = self.programs.said(file, *self.words, lines=self.lines)
        told = re.fullmatch(r"(\d+) calls in (\d+) attempts\n", said)
        assert told and int(told[1]) == len(self.calls), f"{said} of {len(self.calls)} calls"
        self.look_at_end(file)
        assert self.programs.said(file, "run", lines=self.lines) == "0 calls in 0 attempts\n", "calls are made again"
        return int(told[2])


def items_of(file):
    """The items in a file, and how the calls ended; nothing where the file is new. It is read in a copy, as it is, so that what a
    killed process left is not tidied up before the next process meets it."""
    with tempfile.TemporaryDirectory() as folder:
        for end in ("", "-wal"):
            if Path(f"{file}{end}").exists():
                shutil.copy(f"{file}{end}", f"{folder}/copy{end}")
        copy = sqlite3.connect(f"{folder}/copy")
        tables = copy.execute("SELECT count(*) FROM sqlite_master").fetchone()[0]
        if not tables:
            return {}, None
        endings = [ending for (ending,) in copy.execute("SELECT ending FROM made WHERE number > 0 ORDER BY number")]
        items = dict(copy.execute("SELECT item, value FROM items"))
        copy.close()
        return items, endings


class Killed:
    """Calls that are made by processes that are killed."""

    def __init__(self, listed, file):
        self.listed, self.file, self.kills, self.made = listed, file, 0, []

    def look(self):
        """What was made stays made, and the file has the items of the ledger after it."""
        self.kills += 1
        items, made = items_of(self.file)
        assert made is not None or not self.made, "the file is new again"
        made = made or []
        assert made[: len(self.made)] == self.made, "a call that was made is missing, or ends otherwise"
        assert not items or items == attempts.table_of(self.listed.after(len(made))), f"another ledger after {len(made)} calls"
        self.made = made

    def at_statements(self, kills):
        for kill in range(kills):
            words = ["--kill", str(STATEMENTS), "--seed", str(SEED + kill)]
            process = self.listed.programs.own(self.file, *self.listed.words, *words, lines=self.listed.lines)
            _, wrong = process.communicate()
            assert process.returncode == -signal.SIGKILL, f"it is not killed: {process.returncode} {wrong}"
            self.look()
        assert 0 < len(self.made) < len(self.listed.calls), f"{len(self.made)} calls were made at the last kill"
        said = self.listed.programs.said(self.file, *self.listed.words, lines=self.listed.lines)
        assert said.startswith(f"{len(self.listed.calls) - len(self.made)} calls "), f"{said} behind {len(self.made)}"
        self.listed.look_at_end(self.file)

    def at_moments(self, choose):
        """Each process is killed a moment after it has begun to write, and has a little longer than the one before, until one ends."""
        while True:
            before = written(self.file)
            process = self.listed.programs.own(self.file, *self.listed.words, lines=self.listed.lines)
            while process.poll() is None and written(self.file) == before:
                time.sleep(0.001)
            time.sleep(choose.uniform(0, 0.02 * (self.kills + 1)))
            process.kill()
            _, wrong = process.communicate()
            if process.returncode == 0:
                return self.listed.look_at_end(self.file)
            assert process.returncode == -signal.SIGKILL, f"it ends with {process.returncode}: {wrong}"
            self.look()


def written(file):
    """Another value after each commit. SQLite removes its log where a process ends by itself."""
    try:
        log = os.stat(f"{file}-wal")
    except FileNotFoundError:
        return None
    return log.st_size, log.st_mtime_ns


def call(sender, application, completion=NO_OP, programs=(b"", b""), schemas=bytes(4)):
    """A call without arguments."""
    terms = sender + encode.u64(1000) + encode.u64(500) + encode.u64(1500) + encode.string(b"") + bytes(64)
    return terms + encode.u64(application) + encode.u8(completion) + bytes(3) + b"".join(map(encode.string, programs)) + schemas


def departures(programs):
    """Applications come and go, with their keys; who is in one that is gone stays in it until a clearing."""
    (code,) = programs.avm(["asm"], KEYS)
    create = (NO_OP, (code, code), bytes([3, 3, 0, 0]))
    calls = [
        call(ANN, 0, *create), call(BOB, 0, *create), call(ANN, 1, OPT_IN), call(BOB, 1, OPT_IN), call(ANN, 2, OPT_IN),
        call(CAT, 1, DELETE), call(ANN, 1), call(ANN, 1, CLEAR), call(BOB, 2, OPT_IN), call(ANN, 2, CLEAR), call(CAT, 0, *create),
        call(CAT, 2), call(ANN, 2, DELETE), call(ANN, 2, DELETE), call(BOB, 3),
    ]  # fmt: skip
    return Listed(programs, EMPTY, SPEED["HEADER"], calls)


def transfers(programs, count):
    ledger = SPEED["Ledger"]()
    calls = SPEED["Workloads"](programs.program).token(count, ledger, random.Random(SEED))
    return Listed(programs, ledger.encoded(), SPEED["HEADER"], calls, "NORMAL")


def examples(programs):
    for path in sorted((TOP / "examples").glob("*/*.calls")):
        ledger, header, *calls = (bytes.fromhex(line) for line in path.read_text().split())
        yield Listed(programs, ledger, header, calls)


def refusals(programs, file, listed):
    """A file of another ledger, bytes that are no ledger or no call, a call that was made: nothing is written but how a call ended."""

    def refused(words, lines):
        process = programs.own(file, *words, lines=lines)
        _, wrong = process.communicate()
        assert process.returncode == 1 and wrong.startswith("own_state.py: ") and wrong.count("\n") == 1, wrong
        return wrong

    assert "another ledger" in refused(["run"], [EMPTY, *listed.lines[1:]])
    assert "already exists" in refused(["load"], listed.lines[:1])
    before, endings = items_of(file)
    state = own_state.State(file, avm.Avm(programs.library))
    try:
        state.make(len(endings), listed.header, listed.calls[0])
    except sqlite3.IntegrityError:
        state.database.close()
    else:
        raise AssertionError("a call is made that was made")
    assert items_of(file) == (before, endings), "a call is made twice"
    programs.said(file, "run", lines=[*listed.lines, listed.calls[0][:-1]])
    assert items_of(file) == (before, [*endings, "no call Truncated"])
    file += ".none"
    assert "refused ledger Truncated" in refused(["load"], [listed.ledger[:-1]])
    assert items_of(file) == ({}, None)


def check(programs, folder):
    began, counts = time.monotonic(), []
    lists = [*examples(programs), departures(programs), transfers(programs, TRANSFERS)]
    for at, listed in enumerate(lists):
        counts.append((len(listed.calls), listed.make(f"{folder}/{at}.db")))
    made, tried = counts[-1]
    assert tried <= made + 5, f"{tried} attempts of {made} transfers: guesses are wrong"
    refusals(programs, f"{folder}/0.db", lists[0])
    few = lists[-1].first(KILLED_TRANSFERS)
    Killed(few, f"{folder}/statements.db").at_statements(KILLS)
    moments = Killed(few, f"{folder}/moments.db")
    moments.at_moments(random.Random(SEED))
    shown = ", ".join(f"{made} in {tried}" for made, tried in counts)
    print(f"states: calls over a database in so many attempts: {shown}; {KILLS} kills at statements, {moments.kills} at moments,"
          f" {time.monotonic() - began:.0f} s")  # fmt: skip


# ---- how fast it is, by hand

ROUNDS = 3
# What SQLite's `synchronous` is, and whether items are guessed.
WAYS = (("FULL", True), ("NORMAL", True), ("NORMAL", False), ("OFF", True))


class Measured:
    """Transfers between so many holders, over files that have each holder's balance as an item."""

    def __init__(self, programs, folder, holders):
        self.holders, self.machine, self.made = holders, avm.Avm(programs.library), 0
        workloads, ledger = SPEED["Workloads"](programs.program), SPEED["Ledger"]()
        code = workloads.example("token/token.teal")
        self.number = ledger.application((code, workloads.clear), (1, 0, 1, 0), {"supply": 1_000_000 * holders})
        for holder in range(holders):
            ledger.opt_in(holder, self.number, {"balance": 1_000_000})
        self.file = f"{folder}/{holders}.db"
        state = own_state.State(self.file, self.machine)
        state.load(ledger.encoded())
        state.database.close()
        self.states = [self.copy(f"{self.file}.{at}", *way) for at, way in enumerate(WAYS)]
        self.times = [[] for _ in WAYS]

    def copy(self, file, synchronous, guesses):
        shutil.copy(self.file, file)
        return own_state.State(file, self.machine, synchronous, own_state.Guesses() if guesses else None)

    def round(self, choose):
        """The same calls over each file."""
        pairs = [choose.sample(range(self.holders), 2) for _ in range(TRANSFERS)]
        amounts = [encode.u64(choose.randrange(1, 1000)) for _ in pairs]
        calls = [SPEED["call"](giver, self.number, [b"transfer", amount], [taker]) for (giver, taker), amount in zip(pairs, amounts)]
        for state, times in zip(self.states, self.times):
            began, busy = time.perf_counter(), time.process_time()
            for at, each in enumerate(calls, self.made + 1):
                state.make(at, SPEED["HEADER"], each)
            times.append((time.perf_counter() - began, time.process_time() - busy))
        self.made += len(calls)

    def machine_alone(self, choose):
        """Seconds of a processor that a call takes in `Avm.attempt`, over the items that it looks at."""
        giver, taker = choose.sample(range(self.holders), 2)
        transfer = SPEED["call"](giver, self.number, [b"transfer", encode.u64(1)], [taker])
        state = self.states[0]
        known = {item: state.value(item) for item in state.guesses.of(*own_state.parties(transfer))}
        given = avm.Items.of(known)
        assert self.machine.attempt(SPEED["HEADER"], transfer, given).end.ending == avm.Ending.APPROVED
        busy = time.process_time()
        for _ in range(TRANSFERS):
            self.machine.attempt(SPEED["HEADER"], transfer, given)
        return (time.process_time() - busy) / TRANSFERS

    def rows(self):
        items, size = self.holders + 4, os.path.getsize(self.file) / 1e6
        for (synchronous, guesses), state, times in zip(WAYS, self.states, self.times):
            assert state.made()[1:] == ["approved"] * self.made, "a transfer is not approved"
            taken, busy = (statistics.median(each) / TRANSFERS for each in zip(*times))
            cells = items, size, synchronous, "yes" if guesses else "no", state.attempts / self.made, 1 / taken, 1e6 * busy
            yield "| {:,} | {:,.1f} MB | {} | {} | {:.2f} | {:,.0f} | {:.0f} µs |".format(*cells)


def measure(programs, folder):
    print(f"Transfers, the median of {ROUNDS} rounds of {TRANSFERS}; SQLite {sqlite3.sqlite_version}, journal mode WAL.\n")
    print("| items | file | synchronous | guesses | attempts a call | calls a second | processor a call |\n|" + "---|" * 7)
    choose = random.Random(SEED)
    for items in (10_000, 1_000_000):
        measured = Measured(programs, folder, items - 4)
        for _ in range(ROUNDS):
            measured.round(choose)
        print(*measured.rows(), sep="\n", flush=True)
    print(f"\nOf the processor's time, `Avm.attempt` takes {1e6 * measured.machine_alone(choose):.0f} µs.")


def main(library, program, *more):
    programs = Programs(os.path.abspath(library), os.path.abspath(program))
    with tempfile.TemporaryDirectory() as folder:
        (measure if more == ("--measure",) else check)(programs, folder)


if __name__ == "__main__":
    main(*sys.argv[1:])
