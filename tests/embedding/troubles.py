#!/usr/bin/env python3
"""troubles.py LIBRARY AVM: what avm_c_diagnose says of bytes, as rows of data, each worked out by hand from docs/MACHINE.md or
docs/FORMATS.md: the name, the status, the bytes, and what is wanted. Of a text the line and the fault; of a program the rule, the place
and the fault of code; of other bytes the fault; None where nothing is wrong.

Each is compared with what the commands `asm`, `check` and `replay` of AVM print for the same bytes, and with what the functions of the
library say that take them. Each number of the enums comes, but for those that no bytes of their kind have.
"""

import hashlib
import runpy
import sys
from pathlib import Path

TOP = Path(__file__).resolve().parent.parent.parent
sys.path[:0] = [str(TOP / "python"), str(TOP / "tests/embedding"), str(TOP / "tests")]
import avm  # noqa: E402
import blocks  # noqa: E402
import formats  # noqa: E402
from avm import AsmFault, BlockFault, CallFault, CodeFault, LedgerFault, Rule, Status  # noqa: E402

call = runpy.run_path(str(TOP / "tests/answers"), run_name="answers")["call"]
PAGE = {name: data for name, (data, _) in formats.examples(formats.PAGE.read_text()).items()}
EMPTY = bytes.fromhex("00000000000000010000000000000000")
TWO, THREE = "#pragma version 2\n", "#pragma version 3\n"


def texts():
    """Source texts: each line is counted, and the first fault of tokens comes before that of lines, that before that of branches."""
    yield "a program", TWO + "int 1\n", None
    yield "an escape that is none", TWO + 'byte "\\q"\n', (2, AsmFault.Text)
    yield "a string that does not end", TWO + 'int 1\nbyte "a\n', (3, AsmFault.Text)
    yield "no text", "", (1, AsmFault.NoPragma)
    yield "no pragma, behind two empty lines", "\n\nint 1\n", (3, AsmFault.NoPragma)
    yield "another version", "#pragma version 4\n", (1, AsmFault.Version)
    yield "a pragma in a later line", TWO + "int 1\n" + TWO, (3, AsmFault.Version)
    yield "no such instruction", TWO + "int 1\nplus\n", (3, AsmFault.UnknownName)
    yield "an instruction of version 3", TWO + "assert\n", (2, AsmFault.UnknownName)
    yield "no operand", TWO + "int\n", (2, AsmFault.Operands)
    yield "an operand too many", THREE + "pop 1\n", (2, AsmFault.Operands)
    yield "a number that is a word", TWO + "int one\n", (2, AsmFault.BadNumber)
    yield "a number of 65 bits", TWO + "int 18446744073709551616\n", (2, AsmFault.BadNumber)
    yield "a place of the scratch space of 256", TWO + "load 256\n", (2, AsmFault.BadNumber)
    yield "half a byte", TWO + "byte 0x1\n", (2, AsmFault.BadBytes)
    yield "an address that is none", TWO + "addr AAAA\n", (2, AsmFault.BadBytes)
    yield "a label twice", TWO + "a:\nint 1\na:\n", (4, AsmFault.LabelTwice)
    yield "a label that is missing", TWO + "int 1\nb nowhere\n", (3, AsmFault.LabelMissing)
    yield "a label that stands before its branch", TWO + "a:\nint 1\nb a\n", (4, AsmFault.LabelBehind)
    yield "257 constants", TWO + "".join(f"int {at}\n" for at in range(257)), (258, AsmFault.TooManyConstants)
    yield "a constant behind an explicit block", TWO + "intcblock 1\nint 1\n", (3, AsmFault.MixedBlock)
    yield "more than 1,024 bytes", THREE + "pushbytes 0x" + 1017 * "00" + "\npop\nint 1\npop\n", (5, AsmFault.TooLong)
    yield "a fault of tokens behind one of a line", TWO + 'plus\nbyte "a\n', (3, AsmFault.Text)
    yield "a fault of a line behind one of a branch", TWO + "b nowhere\nplus\n", (3, AsmFault.UnknownName)


def whole(rule):
    return rule, 0, 0


def code(place, fault):
    return Rule.Code, place, fault.value


def programs():
    """Programs in hexadecimal digits. 20 01 01 and 22 are a block of the constant 1 and its reading, 42 and 40 branches."""
    yield "a program", "02 200101 22", None
    yield "no bytes", "", whole(Rule.Length)
    yield "1,024 bytes of which too many cost", "02" + "22" * 1023, whole(Rule.Cost)
    yield "1,025 bytes", "02" + "22" * 1024, whole(Rule.Length)
    yield "version 0", "00 22", whole(Rule.Version)
    yield "version 4, and no opcode behind it", "04 ff", whole(Rule.Version)
    yield "version 2 in two bytes", "8200 200101 22", None
    yield "half a version", "82", code(0, CodeFault.Truncated)
    yield "a version of eleven bytes", "82" + "80" * 9 + "00", code(0, CodeFault.BadVaruint)
    yield "no opcode", "02 ff", code(1, CodeFault.UnknownOp)
    yield "an opcode of version 3 in version 2", "02 200101 22 44", code(5, CodeFault.UnknownOp)
    yield "the same in version 3", "03 200101 22 44", None
    yield "a block without its count", "02 200101 22 20", code(5, CodeFault.Truncated)
    yield "a byte string that is cut short", "02 26010561", code(1, CodeFault.Truncated)
    yield "a branch that is cut short", "02 4200", code(1, CodeFault.Truncated)
    yield "a constant of 65 bits", "02 2001" + "ff" * 9 + "02", code(1, CodeFault.BadVaruint)
    yield "an opcode that is left out", "02 200101 60", (Rule.OutOfProfile, 4, 0)
    yield "arg_0", "02 2d", (Rule.OutOfProfile, 1, 0)
    yield "a branch backward", "02 200100 22 408000", (Rule.Backward, 5, 0)
    yield "a branch by 32767", "02 200100 22 407fff", (Rule.PastEnd, 5, 0)
    yield "a branch into a block", "02 420001 200101 22", (Rule.NotAligned, 1, 0)
    yield "a branch behind the end", "02 420002 22", (Rule.PastEnd, 1, 0)
    yield "a branch to the end", "02 420001 22", None
    yield "no opcode behind a bad branch", "02 420009 ff", code(4, CodeFault.UnknownOp)
    yield "a bad branch where too many cost", "02 420000 428000" + "22" * 700, (Rule.Backward, 4, 0)
    yield "a cost of 700", "02" + "22" * 700, None
    yield "a cost of 701", "02" + "22" * 701, whole(Rule.Cost)
    yield "no such field of a transaction", "02 31ff", (Rule.UnknownField, 1, 0)
    yield "an array where one value is wanted", "02 22 311a", (Rule.UnknownField, 2, 0)
    yield "a field of version 3 in version 2", "02 3209", (Rule.UnknownField, 1, 0)
    yield "the same in version 3", "03 3209", None


def changed(data, at, byte):
    return data[:at] + bytes([byte]) + data[at + 1 :]


def sealed(data):
    """A block with its digest."""
    return data[:-32] + hashlib.sha256(data[:-32]).digest()


# Where fields stand in the block of docs/FORMATS.md, which has one entry, with a call of 188 bytes.
COUNT, ENTRY, COMPLETION, OUTCOME = 78, 82, 220, 278


def ledgers_and_blocks():
    ledger, block, status = PAGE["ledger"], PAGE["block"], Status.NO_LEDGER
    yield "a ledger", status, ledger, None
    yield "the empty ledger", status, EMPTY, None
    yield "no bytes as a ledger", status, b"", LedgerFault.Truncated
    yield "a ledger that is cut short", status, ledger[:-1], LedgerFault.Truncated
    yield "a byte behind a ledger", status, ledger + b"\0", LedgerFault.Rest
    yield "the next id 0", status, bytes(16), LedgerFault.Malformed
    yield "an application with the next id", status, changed(ledger, 7, 1), LedgerFault.Malformed
    yield "a next id of 0, cut short", status, bytes(9), LedgerFault.Malformed
    status, entry = Status.NO_BLOCK, block[ENTRY : OUTCOME + 1]
    yield "a block", status, block, None
    yield "no bytes as a block", status, b"", BlockFault.Truncated
    yield "three letters", status, b"AVN", BlockFault.Truncated
    yield "other letters", status, b"AVMC" + block[4:], BlockFault.Magic
    yield "the format 0", status, changed(block, 4, 0), BlockFault.Format
    yield "the format 3", status, b"AVMB\3", BlockFault.Format
    yield "the profile 2 in format 2", status, changed(block, 5, 2), BlockFault.Field
    yield "the format 1", status, sealed(block[:4] + b"\1" + block[6:]), None
    yield "a block that is cut short", status, block[:-1], BlockFault.Truncated
    yield "a byte behind a block", status, block + b"\0", BlockFault.Rest
    yield "a byte behind a block with a wrong digest", status, changed(block, OUTCOME, 1) + b"\0", BlockFault.Rest
    yield "the timestamp 0", status, changed(block, ENTRY + 7, 0), BlockFault.Order
    twice = changed(block, COUNT + 3, 2)[: OUTCOME + 1] + entry + block[OUTCOME + 1 :]
    yield "the same timestamp twice", status, twice, BlockFault.Order
    yield "a completion of 6", status, changed(block, COMPLETION, 6), BlockFault.Field
    yield "a call that breaks a rule", status, changed(block, COMPLETION - 1, 0), BlockFault.Field
    yield "an outcome of kind 5", status, changed(block, OUTCOME, 5), BlockFault.Field
    yield "4,097 entries", status, block[:COUNT] + bytes.fromhex("00001001"), BlockFault.Field
    yield "another digest after, and the old digest", status, changed(block, -33, block[-33] ^ 1), BlockFault.Digest
    yield "another outcome, and the old digest", status, changed(block, OUTCOME, 1), BlockFault.Digest


def others():
    """Headers, calls and items."""
    status, header = Status.NO_HEADER, PAGE["header"]
    yield "a header", status, header, None
    for length in (0, 39, 41):
        yield f"a header of {length} bytes", status, (header + b"\0")[:length], 0
    status, approves = Status.NO_CALL, bytes.fromhex("0220010122")
    yield "a call", status, PAGE["call"], None
    yield "a creation", status, call(), None
    yield "a completion of 6", status, call(completion=6), CallFault.Field
    yield "a completion of 6, cut short behind it", status, call(completion=6)[:139], CallFault.Field
    yield "a call that is cut short", status, call()[:-1], CallFault.Truncated
    yield "a byte behind a call", status, call() + b"\0", CallFault.Rest
    yield "a byte behind a call that breaks a rule", status, call(1, accounts=5) + b"\0", CallFault.Rest
    yield "5 accounts", status, call(1, accounts=5), CallFault.Accounts
    yield "17 arguments", status, call(1, arguments=[b""] * 17), CallFault.Args
    yield "arguments of 2,049 bytes", status, call(1, arguments=[bytes(2000), bytes(49)]), CallFault.ArgBytes
    yield "3 foreign applications", status, call(1, foreign=3), CallFault.Foreign
    yield "a note of 1,025 bytes", status, call(1, note=bytes(1025)), CallFault.Note
    yield "a creation without a program", status, call(programs=(b"", approves)), CallFault.ProgramsMissing
    yield "a program too many", status, call(1, programs=(approves, b"")), CallFault.ProgramsGiven
    yield "a schema of 65", status, call(schemas=bytes([64, 1, 0, 0])), CallFault.SchemaSize
    yield "a creation that clears", status, call(completion=3), CallFault.ClearOnCreate
    yield "a program that is none", status, call(programs=(approves, b"\2\xff")), CallFault.Program
    status, items = Status.NO_ITEMS, PAGE["items"]
    yield "items", status, items, None
    yield "no bytes as items", status, b"", LedgerFault.Truncated
    yield "items that are cut short", status, items[:-1], LedgerFault.Truncated
    yield "a byte behind items", status, items + b"\0", LedgerFault.Rest
    yield "an item of kind 5", status, bytes.fromhex("00000001 05"), LedgerFault.Malformed
    yield "an item twice", status, bytes.fromhex("00000002" + 2 * "01 0000000000000001 00"), LedgerFault.Malformed


def rows():
    """The name, the status, the bytes, and what is wanted: a status, a place, a number and a fault of code."""
    for name, text, wanted in texts():
        yield name, Status.NOT_ASSEMBLED, text.encode(), wanted and (Status.NOT_ASSEMBLED, *wanted, 0)
    yield "a byte that no text has", Status.NOT_ASSEMBLED, b"\xff", (Status.NO_TEXT, 0, 0, 0)
    yield "the same by the other status", Status.NO_TEXT, b"\xff", (Status.NO_TEXT, 0, 0, 0)
    yield "a text that is one", Status.NO_TEXT, (TWO + "int 1\n").encode(), None
    for name, digits, wanted in programs():
        told = wanted and (Status.NO_PROGRAM, wanted[1], wanted[0], wanted[2])
        yield name, Status.NO_PROGRAM, bytes.fromhex(digits), told
    for name, status, data, fault in (*ledgers_and_blocks(), *others()):
        yield name, status, data, None if fault is None else (status, 0, fault, 0)


def line_of(program, status, data):
    """What a command prints for the bytes; None where no command reads such bytes, or a line without digits."""
    if status in (Status.NOT_ASSEMBLED, Status.NO_TEXT):
        return blocks.run([program, "asm"], data)
    if status == Status.NO_PROGRAM:
        return blocks.printed([program, "check"], data)
    ledger_and_block = {Status.NO_LEDGER: (data, PAGE["block"]), Status.NO_BLOCK: (EMPTY, data)}
    if status == Status.NO_HEADER:
        return blocks.printed([program, "propose", "--workers", "1"], EMPTY, data) if data else None
    return blocks.printed([program, "replay"], *ledger_and_block[status]) if status in ledger_and_block and data else None


def told(machine, status, data):
    """What the function says and writes: nothing but with a status that says what is wrong."""
    trouble = avm._Trouble(7, 7, 7)
    found = Status(machine._functions["diagnose"](status, *avm._sized(data), trouble))
    numbers = trouble.place, trouble.number, trouble.code
    if found in (Status.DONE, Status.USAGE):
        assert numbers == (7, 7, 7), f"{found!r} writes {numbers}"
        return None if found == Status.DONE else found
    return found, *numbers


def look_at_error(machine, name, row, line):
    """The error of the module has the same by names, and the line of the command."""
    status, data, wanted = row
    error = machine.diagnose(status, data)
    if wanted is None:
        assert error is None and (line is None or not line.startswith("refused")), f"{name}: {error!r}, {line}"
        return
    told_as, place, number, fault_of_code = wanted
    kind = CodeFault(fault_of_code) if fault_of_code else number or None
    assert error.status is told_as and error.kind is kind, f"{name}: {error!r}"
    assert line is None or f"{error.reason}\n" == line, f"{name}: {error.reason}, and the command prints {line}"
    if isinstance(error, avm.NotAssembled):
        assert error.line == place, f"{name}: line {error.line}"
    if isinstance(error, avm.NoProgram):
        assert error.place == (None if number in (Rule.Version, Rule.Length, Rule.Cost) else place), f"{name}: place {error.place}"


def look_at_others(machine):
    """A status that says nothing of bytes."""
    known = {Status.NOT_ASSEMBLED, Status.NO_TEXT, Status.NO_PROGRAM, Status.NO_LEDGER, Status.NO_BLOCK, Status.NO_HEADER, Status.NO_CALL}
    for status in {*Status} - known - {Status.NO_ITEMS}:
        assert told(machine, status, b"") == Status.USAGE, f"{status!r} says something of bytes"
        try:
            machine.diagnose(status, b"")
        except ValueError:
            continue
        raise AssertionError(f"{status!r} says something of bytes")


def main(library, program):
    machine, came = avm.Avm(library), set()
    for name, status, data, wanted in rows():
        found = told(machine, status, data)
        assert found == wanted, f"{name}: {found}, and not {wanted}"
        look_at_error(machine, name, (status, data, wanted), line_of(program, status, data))
        if wanted:
            came |= {(type(wanted[2]), wanted[2]), (CodeFault, wanted[3])}
    look_at_others(machine)
    kinds = AsmFault, Rule, CodeFault, LedgerFault, BlockFault, CallFault
    missing = [each for kind in kinds for each in kind if (kind, each) not in came]
    # Of lists of calls alone.
    assert missing == [CallFault.TooMany, CallFault.Profile], f"no row for {missing}"
    print(f"troubles: {len([*rows()])} rows of bytes, as commands name them")


if __name__ == "__main__":
    main(*sys.argv[1:])
