#!/usr/bin/env python3
"""proposals.py LIBRARY AVM: the block that avm_c_propose makes is the one that `avm propose --workers 1` prints where that leaves no call
out, byte by byte, and avm_c_replay finds that it agrees.

So it is for the calls of examples/, of each stored block over its ledger, of creations and deletions, for 4,096 transfers, and for
the inputs of tests/answers, with the answers that stand there; each but the transfers with every kind of room. Bytes that are no
ledger, no header or no calls are rows of data, worked out from docs/FORMATS.md. `Call.of` encodes each stored call.
"""

import runpy
import sys
from pathlib import Path

TOP = Path(__file__).resolve().parent.parent.parent
sys.path[:0] = [str(TOP / "python"), str(TOP / "tests/embedding"), str(TOP / "tests")]
import attempts  # noqa: E402
import avm  # noqa: E402
import blocks  # noqa: E402
import formats  # noqa: E402
import rows  # noqa: E402
import states  # noqa: E402

ANSWERS = runpy.run_path(str(TOP / "tests/answers"), run_name="answers")
EMPTY, HEADER, call, block = (ANSWERS[name] for name in ("EMPTY", "HEADER", "call", "block"))
STATUS, OF_CALL, OF_LEDGER = avm.Status, avm.CallFault, avm.LedgerFault
# What `Call.of` takes in front, and what the reader adds to a record.
FRONT = ("sender", "application", "completion", "arguments", "around", "before")


def number(value):
    return value.to_bytes(4, "big")


def listed(*calls):
    return number(len(calls)) + b"".join(calls)


class Proposals:
    """Blocks that are made by the library and by the program."""

    def __init__(self, library, program):
        self.machine, self.lending, self.program = avm.Avm(library), rows.Lending(library), program
        self.made = self.refused = self.left = 0

    def compare(self, name, ledger, header, calls, machine=None):
        """The block, or None where what was given is refused. The program is given the same as lines."""
        text = blocks.printed([self.program, "propose", "--workers", "1"], ledger, header, *calls)
        try:
            found = (machine or self.lending).propose(ledger, header, calls)
        except avm.AvmError as error:
            assert f"{error.reason}\n" == text, f"{name}: {error.reason}, and the program prints {text}"
            self.refused += 1
            return None
        if "left" in text:
            self.left += 1
            return None
        assert found.hex() + "\n" == text, f"{name}: another block than the program prints"
        assert self.machine.replay(ledger, found).agrees, f"{name}: the block does not agree"
        self.made += 1
        return found


def answered(proposals):
    """The inputs of tests/answers by one worker, and the bytes of each call that is refused there."""
    for name, _, given, text, status in ANSWERS["rows"]():
        lines = [bytes.fromhex(line) for line in given.decode().split()]
        few = 2 <= len(lines) < 1000 and "Rest" not in text
        if few:
            found = proposals.compare(name, lines[0], lines[1], lines[2:])
            assert (found is None) == (status != 0), f"{name}: {text}"
            assert found is None or found.hex() + "\n" == text, f"{name}: another block than tests/answers has"


def stored(proposals):
    """The calls of each stored block, over its ledger; each is encoded by its fields."""
    for ledger, over in blocks.stored_pairs():
        parts = blocks.parts_of(over)
        if parts:
            proposals.compare(over.hex()[:200], ledger, *parts)
            for entry in formats.read(attempts.LAYOUTS, "block", over)[0]["entries"]:
                look_at_encoding(entry["call"])


def look_at_encoding(record):
    """A call by `Call.of`, of what the reader of docs/FORMATS.md finds in it."""
    others = {field.replace(" ", "_"): value for field, value in record.items() if field not in FRONT}
    for kind in ("global_schema", "local_schema"):
        others[kind] = others[kind]["uints"], others[kind]["byte strings"]
    front = record["sender"], record["application"], avm.Completion(record["completion"]), record["arguments"]
    assert bytes(avm.Call.of(*front, **others)) == attempts.encode("call", record), "a call is encoded otherwise"


def many(proposals, programs):
    """As many calls as a block has, and one more."""
    listed_calls = states.transfers(programs, 4096)
    given = listed_calls.ledger, listed_calls.header
    found = proposals.compare("4,096 transfers", *given, listed_calls.calls, proposals.machine)
    assert found and found.encoded == listed_calls.block
    first = listed_calls.calls[0]
    return [("4,097 calls", *given, listed(*listed_calls.calls, first), STATUS.NO_CALL, OF_CALL.TooMany, None)]


def refusals():
    """Bytes that are none: the name, the ledger, the header, the calls, the status, the fault, and the number of the call."""
    two, cut, bare = listed(call(), call(1)), call()[:-1], call(programs=(b"", b""))
    no_ledger, no_header, no_call = STATUS.NO_LEDGER, STATUS.NO_HEADER, STATUS.NO_CALL
    yield "a ledger that is cut short", EMPTY[:-1], HEADER, two, no_ledger, OF_LEDGER.Truncated, None
    yield "a byte behind a ledger", EMPTY + b"\0", HEADER, two, no_ledger, OF_LEDGER.Rest, None
    yield "a ledger without a next id", bytes(16), HEADER, two, no_ledger, OF_LEDGER.Malformed, None
    yield "no ledger, no header and no calls", b"", b"", b"", no_ledger, OF_LEDGER.Truncated, None
    yield "a header of 39 bytes", EMPTY, HEADER[1:], two, no_header, None, None
    yield "a header of 41 bytes, and no calls", EMPTY, HEADER + b"\0", b"", no_header, None, None
    yield "no bytes as calls", EMPTY, HEADER, b"", no_call, OF_CALL.Truncated, None
    yield "a count that is cut short", EMPTY, HEADER, bytes(3), no_call, OF_CALL.Truncated, None
    yield "a count without calls", EMPTY, HEADER, number(1), no_call, OF_CALL.Truncated, 1
    yield "the last call cut short", EMPTY, HEADER, number(2) + call() + cut, no_call, OF_CALL.Truncated, 2
    yield "a call that is missing", EMPTY, HEADER, number(3) + two[4:], no_call, OF_CALL.Truncated, 3
    yield "a count of 2^32 - 1", EMPTY, HEADER, b"\xff" * 4 + call(), no_call, OF_CALL.Truncated, 2
    yield "a byte behind the last call", EMPTY, HEADER, two + b"\0", no_call, OF_CALL.Rest, None
    yield "a byte behind no calls", EMPTY, HEADER, bytes(5), no_call, OF_CALL.Rest, None
    yield "a completion of 6", EMPTY, HEADER, listed(call(), call(completion=6)), no_call, OF_CALL.Field, 2
    yield "a broken rule before a missing call", EMPTY, HEADER, number(3) + call() + bare, no_call, OF_CALL.ProgramsMissing, 2
    yield "two calls that break rules", EMPTY, HEADER, listed(bare, call(1, accounts=5)), no_call, OF_CALL.ProgramsMissing, 1
    yield "a broken rule before a rest", EMPTY, HEADER, listed(call(1, accounts=5)) + b"\0", no_call, OF_CALL.Accounts, 1
    yield "4,097 calls and a byte", EMPTY, HEADER, listed(*[call(1)] * 4097) + b"\0", no_call, OF_CALL.Rest, None
    yield "a count of 4,097 with a call too few", EMPTY, HEADER, number(4097) + call(1) * 4096, no_call, OF_CALL.Truncated, 4097


def look_at_refusal(machine, row):
    """The function refuses so, writes `trouble` with NO_CALL alone, and says that it wrote nothing; the error says the same."""
    name, ledger, header, calls, status, kind, place = row
    room, written, trouble = bytearray(b"\x77" * 8), avm._SIZE(7), avm._Trouble(7, 7, 7)
    lent = (avm.ctypes.c_char * 8).from_buffer(room)
    found = machine._functions["propose"](*avm._sized(ledger, header, calls), lent, 8, written, trouble)
    told = (place or 0, kind.value, 0) if status == STATUS.NO_CALL else (7, 7, 7)
    assert (found, written.value, bytes(room)) == (status, 0, b"\x77" * 8), f"{name}: {found}, {written.value}"
    assert (trouble.place, trouble.number, trouble.code) == told, f"{name}: {trouble.place}, {trouble.number}, {trouble.code}"
    try:
        machine.propose(ledger, header, calls)
    except avm.AvmError as error:
        assert error.status is status and error.kind is kind and getattr(error, "call", None) == place, f"{name}: {error!r}"
        return
    raise AssertionError(f"{name} is not refused")


def documented(proposals):
    """The call of docs/FORMATS.md makes the block that stands there, and the list of calls one with both."""
    page = {name: data for name, (data, _) in formats.examples(formats.PAGE.read_text()).items()}
    given = page["ledger"], page["header"]
    assert bytes(proposals.lending.propose(*given, [page["call"]])) == page["block"], "the block of docs/FORMATS.md is another"
    found = proposals.lending.propose(*given, page["calls"])
    assert [entry["timestamp"] for entry in formats.read(attempts.LAYOUTS, "block", bytes(found))[0]["entries"]] == [1, 2]
    assert proposals.machine.replay(given[0], found).agrees


def main(library, program):
    proposals, programs = Proposals(library, program), states.Programs(library, program)
    for each in [*states.examples(programs), states.departures(programs)]:
        found = proposals.compare("the calls of a list", each.ledger, each.header, each.calls)
        assert found and found.encoded == each.block
    documented(proposals)
    answered(proposals)
    stored(proposals)
    refused = [*refusals(), *many(proposals, programs)]
    for row in refused:
        look_at_refusal(proposals.machine, row)
    assert proposals.made > 100 and proposals.refused > 10, f"only {proposals.made} blocks and {proposals.refused} refusals"
    print(f"proposals: {proposals.made} blocks as `avm propose` prints them, {proposals.refused} refusals as it does, {proposals.left} with"
          f" calls left out, {len(refused)} rows of bytes that are none")  # fmt: skip


if __name__ == "__main__":
    main(*sys.argv[1:])
