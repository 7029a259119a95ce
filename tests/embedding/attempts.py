#!/usr/bin/env python3
"""attempts.py LIBRARY: makes the calls of the blocks of examples/ one by one over a table of items, as a node with a database would.

For each call items are looked up as avm_c_attempt asks for them, from none known on; what it writes is put into the table. How the
call ends is what the block says, and the table then has the items of the ledger that avm_c_state gives at that timestamp. A call
that knows all items that were asked for, or all items of the table, needs no more and ends the same. Which bytes an item, a value and
a call are is read from the tables of docs/FORMATS.md.
"""

import ctypes
import re
import sys
from pathlib import Path

TOP = Path(__file__).resolve().parent.parent.parent
sys.path[:0] = [str(TOP / "python"), str(TOP / "tests")]
import avm  # noqa: E402
import formats  # noqa: E402

LAYOUTS = formats.tables(formats.PAGE.read_text())
ABSENT = b"\0"


def encoded_as(encoding, value):
    link = re.match(r"\[(.*?)\]", encoding)
    if link:
        return encode(link[1], value)
    if encoding.endswith(" + n"):
        return len(value).to_bytes(int(encoding[0]), "big") + value
    return value if isinstance(value, bytes) else value.to_bytes(int(encoding), "big")


def encode(name, record):
    """The bytes of a record, by its table."""
    parts = []
    for row in LAYOUTS[name]:
        if not row.is_there(record):
            continue
        size, _, one = row.encoded.partition(" + each ")
        values = record[row.field] if one else [record[row.field]]
        parts += [len(values).to_bytes(int(size), "big")] if one else []
        parts += [encoded_as(one or row.encoded, value) for value in values]
    return b"".join(parts)


def entry_of(item, **value):
    """The bytes of an item and those of its value."""
    name = encode("item", item)
    return name, encode("entry of items", {"item": item, **{field.replace("_", " "): of for field, of in value.items()}})[len(name) :]


def table_of(ledger):
    """The items of a ledger."""
    record, _ = formats.read(LAYOUTS, "ledger", ledger)
    table = dict([entry_of({"kind": 0}, next_id=record["next id"])])
    for app in record["applications"]:
        entries = app["global state"]["entries"]
        kinds = [entry["value"]["kind"] for entry in entries]
        counts = {"uints": kinds.count(1), "byte strings": kinds.count(2)}
        named = {"application": app["id"]}
        table.update([entry_of({"kind": 1, **named}, row={"present": 1, **app}),
                      entry_of({"kind": 2, **named}, counts={"present": 1, "entries": counts})])  # fmt: skip
        table.update(entry_of({"kind": 3, **named, "key": entry["key"]}, key_value={"present": 1, "value": entry["value"]}) for entry in entries)
    for local in record["local states"]:
        item = {"kind": 4, "account": local["account"], "application": local["id"]}
        table.update([entry_of(item, local_state={"present": 1, "state": local["state"]})])
    return table


def items(entries):
    return len(entries).to_bytes(4, "big") + b"".join(item + value for item, value in entries.items())


def put(table, writes):
    """Puts what a call writes into the table. An application that goes takes its keys and counts with it."""
    for entry in formats.read(LAYOUTS, "items", writes)[0]["items"]:
        item, value = entry_of(entry["item"], **{field.replace(" ", "_"): of for field, of in entry.items() if field not in ("item", "around", "before")})
        if value == ABSENT and entry["item"]["kind"] > 0:
            table.pop(item, None)
            if entry["item"]["kind"] == 1:
                for other in [other for other in table if other[0] in (2, 3) and other[1:9] == item[1:9]]:
                    del table[other]
        else:
            table[item] = value


def attempted(machine, header, call, table):
    """The end of a call whose items are looked up as it asks for them, what it writes, and what it asked for."""
    known = {}
    while True:
        attempt = machine.attempt(header, call, items(known))
        if attempt.needs is None:
            return attempt, known
        assert attempt.needs not in known, "it asks for a known item"
        known[attempt.needs] = table.get(attempt.needs, ABSENT)


def ends_as(end, outcome):
    """Whether a call ends as the outcome says."""
    kind, cause = outcome["kind"], outcome.get("cause")
    ending = avm.Ending(kind if cause is None else 4 + cause)
    return (end.ending, end.number, end.place) == (ending, outcome.get("fault", outcome.get("why", 0)), outcome.get("place", 0))


def replay(machine, path):
    """Makes the calls of a block; how many calls there are, and how many items they asked for."""
    ledger, block = (bytes.fromhex(line) for line in path.read_text().split())
    record, _ = formats.read(LAYOUTS, "block", block)
    header, table, asked = encode("header", record["header"]), table_of(ledger), 0
    for entry in record["entries"]:
        call = encode("call", entry["call"])
        attempt, known = attempted(machine, header, call, table)
        assert ends_as(attempt.end, entry["outcome"]), f"{path}, {entry['timestamp']}: ends {attempt.end}"
        for more in (known, {**table, **known}):
            assert machine.attempt(header, call, items(more)) == attempt, f"{path}, {entry['timestamp']}: another end over more items"
        put(table, bytes(attempt.writes))
        after = machine.state(ledger, block, entry["timestamp"]).encoded
        assert table == table_of(after), f"{path}, {entry['timestamp']}: the table is not the ledger after the call"
        asked += len(known)
    return len(record["entries"]), asked


def refusal(machine, header, call, known):
    """What is wrong with the call or the items, or the status where that says all."""
    try:
        machine.attempt(header, call, known)
    except avm.AvmError as error:
        return error.kind or error.status
    return None


def bounds():
    """Items whose value, or whose name, is at a bound of docs/FORMATS.md or behind it, and whether they are items."""
    program = bytes.fromhex("0220010122")

    def key(name, text):
        return entry_of({"kind": 3, "application": 1, "key": name}, key_value={"present": 1, "value": {"kind": 2, "byte string": text}})

    def local_state(count):
        entries = [{"key": bytes([at]), "value": {"kind": 1, "uint": at}} for at in range(count)]
        return entry_of({"kind": 4, "account": bytes(32), "application": 1}, local_state={"present": 1, "state": {"entries": entries}})

    def row(approval=program, uints=64, own=16):
        schemas = {"global schema": {"uints": uints, "byte strings": 0}, "local schema": {"uints": 0, "byte strings": own}}
        programs = {"approval program": approval, "clear program": program}
        return entry_of({"kind": 1, "application": 1}, row={"present": 1, "creator": bytes(32), **programs, **schemas})

    return [
        (key(bytes(64), bytes(64)), True), (key(bytes(65), b""), False), (key(b"", bytes(65)), False),
        (local_state(16), True), (local_state(17), False), (row(), True), (row(uints=65), False), (row(own=17), False),
        (row(program + b"\x22" * 698), True), (row(program + b"\x22" * 699), False), (row(b"\x04\x22"), False), (row(b""), False),
    ]  # fmt: skip


def refusals(machine):
    """Bytes that are none, items at their bounds, and rooms of every size."""
    page = formats.examples(formats.PAGE.read_text())
    header, call, known = (page[name][0] for name in ("header", "call", "items"))
    record, _ = formats.read(LAYOUTS, "call", call)
    many = encode("call", {**record, "accounts": [bytes(32)] * 5})
    of_call, of_items = avm.CallFault, avm.LedgerFault
    for given, wanted in (
        ((header[1:], call, known), avm.Status.NO_HEADER), ((header + b"\0", call[1:], known), avm.Status.NO_HEADER),
        ((header, call[:-1], known), of_call.Truncated), ((header, call + b"\0", b""), of_call.Rest),
        ((header, many, b""), of_call.Accounts), ((header, call, b""), of_items.Truncated), ((header, call, known[:-1]), of_items.Truncated),
        ((header, call, known + b"\0"), of_items.Rest), ((header, call, bytes.fromhex("00000002") + known[4:29] * 2), of_items.Malformed),
    ):  # fmt: skip
        assert refusal(machine, *given) is wanted, f"{refusal(machine, *given)!r} and not {wanted!r}"
    for data, wanted, given in (
        (header, avm.Status.NO_HEADER, lambda part: (part, call, known)), (call, of_call.Truncated, lambda part: (header, part, known)),
        (known, of_items.Truncated, lambda part: (header, call, part)),
    ):  # fmt: skip
        assert all(refusal(machine, *given(data[:end])) is wanted for end in range(len(data))), f"a beginning is not {wanted!r}"
    for name, encoded, fault in formats.EDGES:
        if name == "items":
            found = refusal(machine, header, call, bytes.fromhex(encoded))
            assert found is (fault and of_items[fault]), f"items {encoded} are {found!r}, and by docs/FORMATS.md {fault}"
    for number, (entry, are_items) in enumerate(bounds()):
        found = refusal(machine, header, call, items(dict([entry])))
        assert found is (None if are_items else of_items.Malformed), f"bound {number}: {found!r}"
    wanted = machine.attempt(header, call).needs
    for size in range(len(wanted) + 2):
        room, written, end = ctypes.create_string_buffer(b"\x77" * 80, 80), ctypes.c_size_t(), avm._End(7, 7, 7)
        status = machine._functions["attempt"](*avm._sized(header, call, bytes(4)), room, size, written, end)
        fits = size >= len(wanted)
        assert status == (avm.Status.NEEDS if fits else avm.Status.NO_ROOM) and written.value == len(wanted)
        assert room.raw == (wanted if fits else b"").ljust(80, b"\x77") and (end.ending, end.number, end.place) == (0, 0, 0)


def main(library):
    machine, calls, asked = avm.Avm(library), 0, 0
    paths = sorted((TOP / "examples").glob("*/*.block"))
    for path in paths:
        made, looked_up = replay(machine, path)
        calls, asked = calls + made, asked + looked_up
    refusals(machine)
    print(f"attempts: {calls} calls of {len(paths)} blocks over a table of items, which asked for {asked}")


if __name__ == "__main__":
    main(sys.argv[1])
