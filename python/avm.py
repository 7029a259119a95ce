"""The Algorand Virtual Machine in this process, over its shared library.

    from avm import Avm, Block, Call, Header, Ledger

    avm = Avm()                                    # the library beside this module, or Avm("./libavm_c.so")
    program = avm.assemble(open("counter.teal").read())
    print(avm.list(program))
    ledger, block = map(bytes.fromhex, open("counter.block").read().split())
    verdict = avm.replay(ledger, block)
    print(verdict)                                 # agrees 4fa5..
    after = avm.state(ledger, block, timestamp=3)  # the ledger in the middle of the block
    print(avm.trace(ledger, block, entry=3))       # what its third call did, instruction by instruction, as JSON
    block = avm.propose(after, Header.of(round=501), [Call.of(bytes(32), application=1)])
    attempt = avm.attempt(header, call, known)     # a call over items that you keep yourself
    values = ledger.items()                        # the items of a Ledger with their values, and Ledger.of_items back

`Avm` has all functions of include/avm.h, which says what each promises. Programs, ledgers, headers, calls and blocks are given as
`bytes` or as `Program`, `Ledger`, `Header`, `Call` and `Block`; docs/FORMATS.md has their layouts. What a function refuses is raised: an
`AvmError` of the class for its status, which says what is wrong and where, and `MemoryError` where memory was refused. Several
threads may use one `Avm` at once, and run side by side; each has 512 KiB of stack left for it (`threading.stack_size`).

As a program, `avm.py LIBRARY FILE..` prints the verdict on each block, which stands in its file behind the ledger before it, as two
lines of hexadecimal digits.
"""

import ctypes
import os
import sys
from pathlib import Path
from typing import Any, Callable, Dict, Iterable, List, Optional, Sequence, Tuple, Union

from avm_types import (
    ABSENT, Answer, AsmFault, Attempt, AvmError, Block, BlockFault, Call, CallFault, Calls, CodeFault, Completion, Difference, End, Ended,
    Ending, Fault, Given, Header, Items, Ledger, LedgerFault, NeedsThreads, NoBlock, NoCall, NoEntry, NoHeader, NoItems, NoLedger,
    NoProgram, NoRun, NoText, NotAssembled, Program, Rule, Encoded, Status, TooLong, TROUBLES, Verdict, View, Why, WrongBase,
    WrongOutcome, WrongState, bytes_of, differs, refusal, trouble, words_of,
)  # fmt: skip

__all__ = [
    "ABSENT", "Answer", "AsmFault", "Attempt", "Avm", "AvmError", "Block", "BlockFault", "Call", "CallFault", "Calls", "CodeFault",
    "Completion", "Difference", "End", "Ended", "Ending", "Fault", "Given", "Header", "Items", "Ledger", "LedgerFault", "NeedsThreads",
    "NoBlock", "NoCall", "NoEntry", "NoHeader", "NoItems", "NoLedger", "NoProgram", "NoRun", "NoText", "NotAssembled", "Program", "Rule",
    "Encoded", "Status", "TooLong", "Verdict", "View", "Why", "WrongBase", "WrongOutcome", "WrongState",
]  # fmt: skip


# ---- the library


class _Difference(ctypes.Structure):
    """`struct avm_difference`."""

    _fields_ = [("entry", ctypes.c_uint64), ("ending", ctypes.c_uint32), ("number", ctypes.c_uint32), ("place", ctypes.c_uint32)]

    def told(self) -> Difference:
        return Difference(Ending(self.ending), self.number, self.place, self.entry)


class _End(ctypes.Structure):
    """`struct avm_end`."""

    _fields_ = [("ending", ctypes.c_uint32), ("number", ctypes.c_uint32), ("place", ctypes.c_uint32)]

    def told(self) -> End:
        return End(Ending(self.ending), self.number, self.place)


class _Trouble(ctypes.Structure):
    """`struct avm_trouble`."""

    _fields_ = [("place", ctypes.c_uint64), ("number", ctypes.c_uint32), ("code", ctypes.c_uint32)]


# How the functions are called, after the words for bytes, numbers and lent room.
_FUNCTIONS = {
    "check": "bytes",
    "assemble": "bytes room",
    "list": "bytes room",
    "replay": "bytes bytes digest difference",
    "apply": "bytes bytes room difference",
    "state": "bytes bytes number room",
    "view": "bytes bytes number number room",
    "answer": "bytes bytes room",
    "json": "bytes bytes room",
    "attempt": "bytes bytes bytes room end",
    "call": "bytes bytes bytes room end",
    "propose": "bytes bytes bytes room trouble",
    "trace": "bytes bytes number room",
    "diagnose": "status bytes trouble",
    "version": "",
}
_SIZE = ctypes.c_size_t
_TYPES: Dict[str, Tuple[Any, ...]] = {
    "bytes": (ctypes.c_char_p, _SIZE),
    "room": (ctypes.c_char_p, _SIZE, ctypes.POINTER(_SIZE)),
    "number": (ctypes.c_uint64,),
    "status": (ctypes.c_uint32,),
    "digest": (ctypes.c_char_p,),
    "difference": (ctypes.POINTER(_Difference),),
    "end": (ctypes.POINTER(_End),),
    "trouble": (ctypes.POINTER(_Trouble),),
}
_VERDICTS = (Status.DONE, Status.WRONG_BASE, Status.WRONG_OUTCOME, Status.WRONG_STATE)
_ANSWERED = (Status.DONE, Status.REFUSED, Status.USAGE, Status.NEEDS)
# Which of the bytes that are given a status is of, counted from 0, where it is not the first.
_GIVEN = {Status.NO_BLOCK: 1, Status.NO_ITEMS: 2}
_FIRST_ROOM = 4096
_MOST_NUMBER = 2**64 - 1


def _sized(*given: Given) -> List[Any]:
    """Bytes as they are handed over, each with its length behind it. Of no bytes the pointer is not null either."""
    return [word for each in map(bytes_of, given) for word in (each, len(each))]


def _uint64(number: int) -> int:
    if not 0 <= number <= _MOST_NUMBER:
        raise ValueError(f"{number} is not from 0 to 2^64 - 1")
    return number


def _library(library: Union[str, "os.PathLike[str]", None]) -> str:
    """Where the library is."""
    if library is not None:
        return library if isinstance(library, str) else os.path.abspath(library)
    named = os.environ.get("AVM_LIBRARY")
    beside = Path(__file__).resolve().parent.parent / "lib" / "libavm.so"
    if not named and not beside.exists():
        raise FileNotFoundError(f"there is no {beside}: name the library, or set AVM_LIBRARY")
    return named or str(beside)


class Avm:
    """The machine.

    `library` is the path of the shared library. Without one it is what AVM_LIBRARY in the environment names, or ../lib/libavm.so
    beside this module's folder, where an unpacked archive has it.
    """

    def __init__(self, library: Union[str, "os.PathLike[str]", None] = None) -> None:
        loaded = ctypes.CDLL(_library(library))
        self._functions: Dict[str, Callable[..., int]] = {}
        for name, words in _FUNCTIONS.items():
            function = getattr(loaded, f"avm_c_{name}")
            function.restype = ctypes.c_uint32
            function.argtypes = [each for word in words.split() for each in _TYPES[word]]
            self._functions[name] = function

    def check(self, program: Given) -> None:
        """Tests that the bytes are a program. Else `NoProgram`."""
        status = Status(self._functions["check"](*_sized(program)))
        if status != Status.DONE:
            raise self._refused(status, (program,))

    def assemble(self, source: Union[str, Given]) -> Program:
        """The program that source text assembles to. Else `NotAssembled`, or `NoText` for bytes that are not UTF-8."""
        text = source.encode() if isinstance(source, str) else bytes_of(source)
        return Program(self._told("assemble", (text,)))

    def list(self, program: Given) -> str:
        """A program's listing, with a line feed behind each line. Else `NoProgram`."""
        return self._told("list", (program,)).decode()

    def replay(self, ledger: Given, block: Given) -> Verdict:
        """The verdict on a block over the ledger before it. `NoLedger` or `NoBlock` where the bytes are none."""
        digest, found = ctypes.create_string_buffer(32), _Difference()
        status = Status(self._functions["replay"](*_sized(ledger, block), digest, found))
        if status not in _VERDICTS:
            raise self._refused(status, (ledger, block))
        return Verdict(status, digest.raw if status == Status.DONE else None, found.told() if status == Status.WRONG_OUTCOME else None)

    def apply(self, ledger: Given, block: Given) -> Ledger:
        """The ledger after a block that agrees. Else `NoLedger`, `NoBlock`, `WrongBase`, `WrongOutcome` or `WrongState`."""
        size = len(bytes_of(ledger)) + len(bytes_of(block))
        return Ledger(self._told("apply", (ledger, block), guess=size, behind=_Difference()))

    def state(self, ledger: Given, block: Given, timestamp: int = _MOST_NUMBER) -> Ledger:
        """The ledger after the calls of a block with timestamps up to this one; where none is given, after all calls. Outcomes and
        the digest after are not compared. Else `NoLedger`, `NoBlock` or `WrongBase`."""
        size = len(bytes_of(ledger)) + len(bytes_of(block))
        return Ledger(self._told("state", (ledger, block), _uint64(timestamp), guess=size))

    def view(self, ledger: Given, block: Given, entry: int, steps: int) -> View:
        """What stands in the machine after so many steps of the call of an entry, counted from 1, over the ledger that it met. Else
        `NoLedger`, `NoBlock`, `NoEntry`, `WrongBase`, `NoRun` or `Ended`."""
        return View(self._told("view", (ledger, block), _uint64(entry), _uint64(steps)).decode())

    def trace(self, ledger: Given, block: Given, entry: Optional[int] = None) -> str:
        """What the call of an entry does, counted from 1, instruction by instruction, or what all calls of the block do: the JSON that
        `avm_json trace` prints. Else `NoLedger`, `NoBlock`, `NoEntry`, `WrongBase`, `TooLong`, or of an entry `NoRun`."""
        if entry == 0:
            raise refusal(Status.NO_ENTRY)
        return self._told("trace", (ledger, block), _uint64(entry or 0), guess=1 << 20).decode()

    def answer(self, words: Sequence[str], given: Given = b"") -> Answer:
        """What the program `avm` writes for these words and this input, also a refusal. `NeedsThreads` for `propose`."""
        return self._answered("answer", words, given)

    def json(self, words: Sequence[str], given: Given = b"") -> Answer:
        """What the program `avm_json` writes for these words and this input, also a refusal."""
        return self._answered("json", words, given)

    def propose(self, ledger: Given, header: Given, calls: Union[Given, Iterable[Given]]) -> Block:
        """The block of calls that are made one after another, in their order; they are given one by one or as a list's bytes. A call
        that is refused or faults stands in it with that outcome. Else `NoLedger`, `NoHeader` or `NoCall`."""
        listed = calls if isinstance(calls, (bytes, bytearray, memoryview, Encoded)) else Calls.of(calls)
        size = len(bytes_of(listed)) * 5 // 4 + 256
        return Block(self._told("propose", (ledger, header, listed), guess=size, behind=_Trouble()))

    def call(self, ledger: Given, header: Given, call: Given) -> Tuple[End, Ledger]:
        """How a call ends over a ledger, and the ledger after it. Else `NoLedger`, `NoHeader` or `NoCall`."""
        end = _End()
        after = self._told("call", (ledger, header, call), guess=len(bytes_of(ledger)) + 8192, behind=end)
        return end.told(), Ledger(after)

    def attempt(self, header: Given, call: Given, known: Given = bytes(4)) -> Attempt:
        """A call over items that are known, in the layouts of docs/FORMATS.md: the first item that it looks at and that is not among
        them, or how it ends and what it writes. It runs from its beginning each time. What two known items say together is for the
        caller to keep. Else `NoHeader`, `NoCall` or `NoItems`."""
        given, end = (header, call, known), _End()
        status, told = self._lent("attempt", *_sized(*given), behind=(end,))
        if told is None:
            raise self._refused(status, given, end)
        return Attempt(needs=told) if status == Status.NEEDS else Attempt(end=end.told(), writes=Items(told))

    def diagnose(self, status: Status, given: Given) -> Optional[AvmError]:
        """What is wrong with bytes that a function refused by this status, as the error that it raises; None where nothing is. Of a
        status that says nothing of bytes it is a `ValueError`."""
        found = _Trouble()
        told = Status(self._functions["diagnose"](status, *_sized(given), found))
        if told == Status.MEMORY:
            raise MemoryError
        if told == Status.USAGE:
            raise ValueError(f"{status.name} says nothing of bytes")
        if told not in TROUBLES:
            return None if told == Status.DONE else refusal(told)
        return trouble(told, found.place, found.number, found.code)

    def version(self) -> str:
        """The version of the library, as MAJOR.MINOR.PATCH."""
        number = self._functions["version"]()
        return f"{number // 1_000_000}.{number // 1_000 % 1_000}.{number % 1_000}"

    def _answered(self, name: str, words: Sequence[str], given: Given) -> Answer:
        """What a program writes for words and an input."""
        if any("\0" in word for word in words):
            raise ValueError("a word has a zero byte")
        status, output = self._lent(name, *_sized("\0".join(words).encode(), given))
        if output is None:
            raise self._refused(status)
        return Answer(status, output)

    def _told(self, name: str, given: Sequence[Given], *numbers: int, guess: int = 0, behind: Optional[ctypes.Structure] = None) -> bytes:
        """What a function answers, or the error for its status. It may write to `behind`."""
        status, told = self._lent(name, *_sized(*given), *numbers, guess=guess, behind=() if behind is None else (behind,))
        if told is None:
            raise self._refused(status, given, behind)
        return told

    def _lent(self, name: str, *given: Any, guess: int = 0, behind: Sequence[Any] = ()) -> Tuple[Status, Optional[bytes]]:
        """Calls a function that answers bytes, with more room where the first is too little."""
        size = max(guess, _FIRST_ROOM)
        while True:
            room, written = ctypes.create_string_buffer(size), _SIZE()
            status = Status(self._functions[name](*given, room, size, written, *behind))
            if status != Status.NO_ROOM:
                return status, ctypes.string_at(room, written.value) if status in _ANSWERED else None
            size = written.value

    def _refused(self, status: Status, given: Sequence[Given] = (), behind: Optional[ctypes.Structure] = None) -> Exception:
        """What is raised for a status of a function, with what is wrong with the bytes that it was given."""
        if status == Status.MEMORY:
            return MemoryError()
        if isinstance(behind, _Difference) and status == Status.WRONG_OUTCOME:
            return differs(status, behind.told())
        if isinstance(behind, _Trouble) and status == Status.NO_CALL:
            return trouble(status, behind.place, behind.number)
        if isinstance(behind, _End) and status == Status.NO_CALL:
            return trouble(status, 0, behind.number)
        if status in TROUBLES:
            return self.diagnose(status, given[_GIVEN.get(status, 0)]) or AvmError(status)
        return refusal(status)


# ---- the program


def _found(avm: Avm, name: str) -> Tuple[bool, str]:
    """Whether the block of a file agrees, and the verdict on it."""
    with open(name, "rb") as file:
        lines = file.read().decode("latin-1").replace("\r\n", "\n").split("\n")
    try:
        ledger, block = Ledger.from_hex(lines[0]), Block.from_hex(lines[1])
    except (ValueError, IndexError):
        return False, "refused"
    try:
        verdict = avm.replay(ledger, block)
    except AvmError as error:
        return False, words_of(error.status.name)
    return verdict.agrees, str(verdict)


def main(words: Sequence[str]) -> int:
    """The program: LIBRARY FILE.. The status is 0 where every block agrees, and else 1."""
    if not words:
        print("usage: avm.py LIBRARY FILE..", file=sys.stderr)
        return 2
    avm, agree = Avm(words[0]), True
    for name in words[1:]:
        agrees, text = _found(avm, name)
        agree = agree and agrees
        print(text)
    return 0 if agree else 1


if __name__ == "__main__":
    sys.exit(main(sys.argv[1:]))
