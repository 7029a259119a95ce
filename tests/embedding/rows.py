"""The stored rows of commands, asked of the shared object LIBRARY: by avm_c_answer with the words of the row, and by the function that
does what the command does, with the bytes that the row's digits encode; and the cases of tests/json_cases by avm_c_json. What is wanted
was worked out outside the programs.

    python3 tests/embedding/rows.py LIBRARY

Each call that is lent room is made with room for no bytes, for one byte too few, for just as many and for more; bytes of the room
that the answer does not fill have to stay as they were.
"""

import ast
import collections
import ctypes
import hashlib
import sys
from pathlib import Path

TOP = Path(__file__).resolve().parent.parent.parent
sys.path[:0] = [str(TOP / "tests"), str(TOP / "python")]
import formats  # noqa: E402
import stored  # noqa: E402
from avm import Answer, Avm, AvmError, Ledger, Status  # noqa: E402

MARK = b"\xa5"
MOST = 1 << 16
ANSWERED = (Status.DONE, Status.REFUSED, Status.USAGE)
# What a command answers, and the status of the function that does the same.
STATUSES = {
    "refused input": Status.NO_TEXT,
    "refused asm": Status.NOT_ASSEMBLED,
    "refused check": Status.NO_PROGRAM,
    "refused ledger": Status.NO_LEDGER,
    "refused block": Status.NO_BLOCK,
    "wrong base": Status.WRONG_BASE,
    "wrong outcome": Status.WRONG_OUTCOME,
    "wrong state": Status.WRONG_STATE,
    "refused state": Status.WRONG_BASE,
    "refused debug NoEntry": Status.NO_ENTRY,
    "refused debug WrongBase": Status.WRONG_BASE,
    "refused debug NoProgram": Status.NO_RUN,
    "refused debug Ended": Status.ENDED,
}


class Lending(Avm):
    """Calls with lent room, made with every kind of room."""

    def _lent(self, name, *given, guess=0, behind=()):
        function = self._functions[name]
        status, answer = self.with_room(function, given, behind, MOST)
        if status == Status.NO_ROOM:
            status, answer = self.with_room(function, given, behind, answer)
        if answer is not None:
            sizes = {0, max(len(answer) - 1, 0), len(answer), len(answer) + 1}
            for size in sizes:
                wanted = (status, answer) if size >= len(answer) else (Status.NO_ROOM, len(answer))
                found = self.with_room(function, given, behind, size)
                if found != wanted:
                    raise AssertionError(f"room for {size} of {len(answer)} bytes: {found[0]!r}")
        return status, answer

    def with_room(self, function, given, behind, size):
        """The status, and the answer, or how many bytes are wanted. A byte stands behind the room, also where it is of none."""
        room, written = ctypes.create_string_buffer(MARK * (size + 1), size + 1), ctypes.c_size_t(1)
        status = Status(function(*given, room, size, written, *behind))
        filled = written.value if status in ANSWERED else 0
        if filled > size or room.raw[filled:].strip(MARK):
            raise AssertionError(f"{status!r} wrote beyond its answer of {written.value} bytes")
        if status == Status.NO_ROOM:
            return status, written.value
        if status not in ANSWERED and written.value != 0:
            raise AssertionError(f"{status!r} says that it wrote {written.value} bytes")
        return status, room.raw[:filled] if status in ANSWERED else None


def asked(function, *given):
    """The status of a function, and what it gives; where it raises, None."""
    try:
        return Status.DONE, function(*given)
    except AvmError as error:
        return error.status, None


def reason(function, *given):
    """The line of the command that an error of the function has."""
    try:
        function(*given)
    except AvmError as error:
        return error.reason
    return None


def names():
    """The names of faults and of reasons, in the order of their numbers, as examples/encode.py lists them."""
    lists = {}
    for node in ast.parse((TOP / "examples/encode.py").read_text()).body:
        if isinstance(node, ast.Assign) and node.targets[0].id in ("FAULTS", "REFUSALS"):
            lists[node.targets[0].id] = ast.literal_eval(node.value)
    return lists["FAULTS"], lists["REFUSALS"]


FAULTS, REFUSALS = names()


def difference_in(words):
    """Entry, ending, number and place, in the words behind `wrong outcome`."""
    entry, kind, *more = words
    if kind == "faulted":
        return int(entry), 2, FAULTS.index(more[0]) + 1, int(more[1])
    if kind == "refused":
        return int(entry), 3, REFUSALS.index(more[0]) + 1, 0
    if kind == "cleared" and more[0] == "faulted":
        return int(entry), 6, FAULTS.index(more[1]) + 1, int(more[2])
    ending = {"approved": 0, "rejected": 1, "gone": 4}[kind] if kind != "cleared" else {"gone": 4, "rejected": 5}[more[0]]
    return int(entry), ending, 0, 0


def status_of(text):
    for begun, status in STATUSES.items():
        if text.startswith(begun):
            return status
    return Status.DONE


def parts_of(given, count):
    """The bytes of so many lines of digits, or None where the input is encoded otherwise."""
    try:
        lines = [line for line in given.decode("ascii").splitlines() if line.strip(" \t")]
        return [bytes.fromhex(line) for line in lines] if len(lines) == count and " " not in given.decode() else None
    except ValueError:
        return None


def of_program(avm, name, given, text):
    """What the function is asked, and what it has to give, for a command whose input is a program."""
    (program,) = parts_of(given, 1)
    status = status_of(text)
    if name == "check":
        refused = text.rstrip("\n") if status == Status.NO_PROGRAM else None
        return (asked(avm.check, program), reason(avm.check, program)), ((status, None), refused)
    return asked(avm.list, program), (status, text if status == Status.DONE else None)


def options_in(words):
    """The numbers behind a command's options, which stand in a word of their own or behind `=`."""
    parts = [part for word in words[1:] for part in word.split("=")]
    return dict(zip(parts[::2], map(int, parts[1::2])))


def verdict_of(avm, ledger, block):
    """The status, the digest, the difference, and the line that `avm replay` prints: of an error its reason."""
    try:
        verdict = avm.replay(ledger, block)
    except AvmError as error:
        return error.status, None, None, error.reason
    found = verdict.difference
    if found:
        numbers = found.entry, found.ending, found.number, found.place
        return verdict.status, verdict.digest, numbers, f"wrong outcome {found.named}"
    return verdict.status, verdict.digest, None, str(verdict)


def applied(avm, ledger, block):
    """The status, the digest of the ledger after, and the difference."""
    try:
        after = avm.apply(ledger, block)
    except AvmError as error:
        found = getattr(error, "difference", None)
        return error.status, None, found and (found.entry, found.ending, found.number, found.place)
    return Status.DONE, hashlib.sha256(bytes(after)).digest(), None


def wanted_verdict(status, text):
    words = text.split()
    digest = bytes.fromhex(words[1]) if status == Status.DONE else None
    return status, digest, difference_in(words[2:]) if status == Status.WRONG_OUTCOME else None, text.rstrip("\n")


def of_block(avm, words, given, text):
    ledger, block = parts_of(given, 2)
    options = options_in(words)
    status = status_of(text)
    if words[0] == "replay":
        wanted = wanted_verdict(status, text)
        return (verdict_of(avm, ledger, block), applied(avm, ledger, block)), (wanted, wanted[:3])
    if words[0] == "state":
        found, after = asked(avm.state, ledger, block, options["--at"])
        return (found, after and after.hex()), (status, text.rstrip("\n") if status == Status.DONE else None)
    found, view = asked(avm.view, ledger, block, options["--entry"], options["--steps"])
    return (found, view and view.text), (status, text if status == Status.DONE else None)


def of_command(avm, words, given, answer):
    """What the function of a row's command gives and has to give; None where the row is one of digits and lines alone."""
    text = answer.decode()
    if words[0] == "asm":
        status = status_of(text)
        found, program = asked(avm.assemble, given)
        return (found, program.hex() if program else reason(avm.assemble, given)), (status, text.rstrip("\n"))
    if words[0] in ("dis", "check"):
        return of_program(avm, words[0], given, text) if parts_of(given, 1) else None
    return of_block(avm, words, given, text) if parts_of(given, 2) else None


def ends(avm):
    """The examples' blocks lead to ledgers with the digests that stand in the blocks, which encode.py wrote."""
    wrong = []
    for path in sorted((TOP / "examples").glob("*/*.block")):
        ledger, block = map(bytes.fromhex, path.read_text().split())
        after = asked(avm.state, ledger, block)[1]
        if after is None or hashlib.sha256(bytes(after)).digest() != block[-64:-32]:
            wrong.append(f"{path.name}: the ledger after the block")
        if asked(avm.state, ledger, block, 0) != (Status.DONE, Ledger(ledger)):
            wrong.append(f"{path.name}: the ledger before the block")
    return wrong


def documented(avm):
    """The ledger and the block of docs/FORMATS.md agree."""
    shown = formats.examples(formats.PAGE.read_text())
    found = verdict_of(avm, shown["ledger"][0], shown["block"][0])
    return [] if found[0] == Status.DONE else [f"docs/FORMATS.md: {found[3]}"]


def main(library):
    avm, counts = Lending(library), collections.Counter()
    wrong = ends(avm) + documented(avm)
    for words, given, answer, status in stored.commands():
        waits = words[:1] == ["propose"] and status != Status.USAGE
        wanted = (Status.PROPOSE, None) if waits else (Status.DONE, Answer(Status(status), answer))
        counts["answer"] += 1
        if asked(avm.answer, words, given) != wanted:
            wrong.append(f"avm_c_answer: {words} {given[:60]}")
        pair = None if waits or status == Status.USAGE else of_command(avm, words, given, answer)
        if pair:
            counts[words[0]] += 1
            if pair[0] != pair[1]:
                wrong.append(f"{words} {given[:60]}: {pair[0]}, and not {pair[1]}")
    for name, words, given, answer, status in stored.json_cases():
        counts["json"] += 1
        if asked(avm.json, words, given) != (Status.DONE, Answer(Status(status), answer)):
            wrong.append(f"avm_c_json: {name}")
    for line in wrong[:20]:
        print(f"WRONG {line}")
    print("rows of commands:", ", ".join(f"{count} by {name}" for name, count in sorted(counts.items())))
    few = [name for name in ("answer", "asm", "check", "debug", "dis", "json", "replay", "state") if counts[name] < 5]
    if few:
        print(f"WRONG fewer than five rows of {', '.join(few)}")
    return 1 if wrong or few else 0


if __name__ == "__main__":
    sys.exit(main(sys.argv[1]))
