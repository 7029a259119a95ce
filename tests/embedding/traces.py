#!/usr/bin/env python3
"""traces.py LIBRARY AVM_JSON: avm_c_trace answers what `avm_json trace` prints, of all entries and of each one (`--entry N`), for each
stored ledger and block, with every kind of room; where the program refuses, the function has the status of that refusal.

So it is for the longest texts of tests/long_traces.py, as they were worked out there, and for those that are too long. What is
refused in which order are rows of data, by docs/JSON.md and docs/MACHINE.md.
"""

import itertools
import sys
from pathlib import Path

TOP = Path(__file__).resolve().parent.parent.parent
sys.path[:0] = [str(TOP / "python"), str(TOP / "tests/embedding"), str(TOP / "tests")]
import avm  # noqa: E402
import blocks  # noqa: E402
import formats  # noqa: E402
import long_traces  # noqa: E402
import rows  # noqa: E402

STATUS = avm.Status
# What the program prints, and the status of the function.
STATUSES = {
    "refused debug NoEntry": STATUS.NO_ENTRY,
    "refused debug WrongBase": STATUS.WRONG_BASE,
    "refused debug NoProgram": STATUS.NO_RUN,
    "refused trace TooLong": STATUS.TOO_LONG,
}
EMPTY = bytes.fromhex("00000000000000010000000000000000")


def traced(machine, ledger, block, entry=None):
    """The text of a trace, or the error."""
    try:
        return machine.trace(ledger, block, entry)
    except avm.AvmError as error:
        return error


def wanted_of(text):
    """The status of a line that refuses, and the line itself where bytes are none."""
    line = text.rstrip("\n")
    return (STATUSES[line], None) if line in STATUSES else (None, line)


def compare(machine, avm_json, ledger, block, entry):
    """Whether there is a trace."""
    words = [avm_json, "trace", *([] if entry is None else ["--entry", str(entry)])]
    text, found = blocks.printed(words, ledger, block), traced(machine, ledger, block, entry)
    where = f"entry {entry} of {block.hex()[:200]}"
    if not text.startswith("refused"):
        assert found == text, f"{where}: another trace than `avm_json trace` prints: {found!r:.200}"
        return True
    assert isinstance(found, avm.AvmError), f"{where}: `avm_json trace` prints {text}"
    status, line = wanted_of(text)
    assert found.status is status if status else found.reason == line, f"{where}: {found!r}, and `avm_json trace` prints {text}"
    return False


def stored(machine, avm_json):
    """How many traces there are, and how many refusals."""
    found = []
    for ledger, block in blocks.stored_pairs():
        if not ledger or not block:
            # A line without digits is none.
            continue
        parts = blocks.parts_of(block)
        count = len(parts[1]) if parts else 0
        found += [compare(machine, avm_json, ledger, block, entry) for entry in (None, *range(1, count + 2), 2**64 - 1)]
    return found.count(True), found.count(False)


def longest(machine):
    """The longest text, and what has a byte more."""
    for words, given, text, more in itertools.islice(long_traces.longest(), 2):
        entry = 1 if len(words) > 1 else None
        given, more = ([bytes.fromhex(line) for line in lines.decode().split()] for lines in (given, more))
        assert traced(machine, *given, entry) == text.decode(), f"{words}: the longest text is another"
        found = traced(machine, *more, entry)
        assert isinstance(found, avm.TooLong) and found.reason == "refused trace TooLong", f"{words}: {found!r:.200}"
    given = [bytes.fromhex(line) for line in long_traces.far_too_long().decode().split()]
    assert isinstance(traced(machine, *given), avm.TooLong) and isinstance(traced(machine, *given, 1), avm.TooLong)


def refusals():
    """The name, the ledger, the block, the entry and the status: a ledger comes before a block, that before its entry, that before the
    base, and that before whether a program runs."""
    page = {name: data for name, (data, _) in formats.examples(formats.PAGE.read_text()).items()}
    ledger, block = page["ledger"], page["block"]
    bare = avm.Calls.of([avm.Call.of(bytes(32), 1)])
    yield "a ledger that is cut short, and a block that is", ledger[:-1], block[:-1], 1, STATUS.NO_LEDGER
    yield "a block that is cut short", ledger, block[:-1], 9, STATUS.NO_BLOCK
    yield "an entry behind the last", ledger, block, 2, STATUS.NO_ENTRY
    yield "the greatest entry", ledger, block, 2**64 - 1, STATUS.NO_ENTRY
    yield "an entry behind the last, over another ledger", EMPTY, block, 2, STATUS.NO_ENTRY
    yield "another ledger", EMPTY, block, 1, STATUS.WRONG_BASE
    yield "another ledger, all entries", EMPTY, block, None, STATUS.WRONG_BASE
    yield "a call of no application", EMPTY, bare, 1, STATUS.NO_RUN


def look_at_refusals(machine):
    count = 0
    for name, ledger, given, entry, status in refusals():
        block = machine.propose(ledger, avm.Header.of(500), given) if isinstance(given, avm.Calls) else given
        found = traced(machine, ledger, block, entry)
        assert isinstance(found, avm.AvmError) and found.status is status, f"{name}: {found!r:.200}"
        count += 1
    return count


def main(library, avm_json):
    machine = rows.Lending(library)
    told, refused = stored(machine, avm_json)
    of_data = look_at_refusals(machine)
    longest(avm.Avm(library))
    assert told > 100 and refused > 100, f"only {told} traces and {refused} refusals"
    print(f"traces: {told} as `avm_json trace` prints them, {refused} refusals as it does, {of_data} rows of refusals, the longest texts")


if __name__ == "__main__":
    main(*sys.argv[1:])
