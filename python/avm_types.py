"""What python/avm.py takes and answers: the numbers of include/avm.h, bytes by what they are, answers, and what is refused.

Programs import it by `avm`, which has all of it.
"""

import enum
import re
from dataclasses import dataclass
from typing import Callable, Dict, Iterable, Iterator, List, Mapping, Optional, Sequence, Tuple, Type, TypeVar, Union


def words_of(name: str) -> str:
    return name.lower().replace("_", " ")


# ---- numbers: those of include/avm.h, which says what each means


class Named(enum.IntEnum):
    """A number that is shown by its name, as commands print it."""

    def __str__(self) -> str:
        return self.name

    def __format__(self, form: str) -> str:
        return format(self.name, form)


class Status(enum.IntEnum):
    """What a function says (`enum avm_status`)."""

    DONE = 0
    REFUSED = 1
    USAGE = 2
    MEMORY = 3
    NO_ROOM = 4
    PROPOSE = 5
    NO_TEXT = 6
    NOT_ASSEMBLED = 7
    NO_PROGRAM = 8
    NO_LEDGER = 9
    NO_BLOCK = 10
    WRONG_BASE = 11
    WRONG_OUTCOME = 12
    WRONG_STATE = 13
    NO_ENTRY = 14
    NO_RUN = 15
    ENDED = 16
    NEEDS = 17
    NO_HEADER = 18
    NO_CALL = 19
    NO_ITEMS = 20
    TOO_LONG = 21


class Ending(enum.IntEnum):
    """How a call ends (`enum avm_ending`)."""

    APPROVED = 0
    REJECTED = 1
    FAULTED = 2
    CALL_REFUSED = 3
    CLEARED_GONE = 4
    CLEARED_REJECTED = 5
    CLEARED_FAULTED = 6

    @property
    def words(self) -> str:
        """As commands print it."""
        return words_of(self.name.replace("CALL_", ""))


class Fault(Named):
    """What stops a program (`enum avm_fault`)."""

    Err = 1
    Underflow = 2
    WrongType = 3
    Compare = 4
    Overflow = 5
    Negative = 6
    DivZero = 7
    TooLong = 8
    Range = 9
    BtoiLength = 10
    StackFull = 11
    NoConstant = 12
    BadField = 13
    NoTxn = 14
    NoArg = 15
    NoAccount = 16
    NoForeign = 17
    NotOptedIn = 18
    NoSuchApp = 19
    Schema = 20
    KeyLength = 21
    FinalDepth = 22
    FinalBytes = 23
    Assert = 24


class Why(Named):
    """Why a call is refused before its program runs (`enum avm_why`)."""

    NoApp = 1
    AlreadyIn = 2
    NotIn = 3
    IdsEnd = 4


class CallFault(Named):
    """Why bytes are no call, or no calls of a block (`enum avm_call_fault`)."""

    Field = 1
    Truncated = 2
    Rest = 3
    Accounts = 17
    Args = 18
    ArgBytes = 19
    Foreign = 20
    ProgramsMissing = 21
    ProgramsGiven = 22
    SchemaSize = 23
    ClearOnCreate = 24
    Program = 25
    Note = 26
    TooMany = 33
    Profile = 34


class Rule(Named):
    """Which rule of programs bytes break (`enum avm_rule`)."""

    Version = 1
    Length = 2
    Code = 3
    OutOfProfile = 4
    Backward = 5
    NotAligned = 6
    PastEnd = 7
    Cost = 8
    UnknownField = 9


class CodeFault(Named):
    """Why no instruction is read, where `Rule.Code` is broken (`enum avm_code_fault`)."""

    UnknownOp = 1
    Truncated = 2
    BadVaruint = 3


class AsmFault(Named):
    """What is wrong with source text (`enum avm_asm_fault`)."""

    Text = 1
    NoPragma = 2
    Version = 3
    UnknownName = 4
    Operands = 5
    BadNumber = 6
    BadBytes = 7
    LabelTwice = 8
    LabelMissing = 9
    LabelBehind = 10
    TooManyConstants = 11
    MixedBlock = 12
    TooLong = 13


class LedgerFault(Named):
    """Why bytes are no ledger, or no items with their values (`enum avm_ledger_fault`)."""

    Malformed = 1
    Truncated = 2
    Rest = 3


class BlockFault(Named):
    """Why bytes are no block (`enum avm_block_fault`)."""

    Magic = 1
    Format = 2
    Truncated = 3
    Rest = 4
    Order = 5
    Field = 6
    Digest = 7


class Completion(Named):
    """What a call asks for beside a run of the approval program."""

    NoOp = 0
    OptIn = 1
    CloseOut = 2
    ClearState = 3
    UpdateApplication = 4
    DeleteApplication = 5


# ---- fields, read and encoded as docs/FORMATS.md says

#: What is taken for bytes.
Given = Union[bytes, bytearray, memoryview, "Encoded"]
#: The value of an item that is not there.
ABSENT = b"\0"
_NEXT_ID, _ROW, _COUNTS, _KEY, _LOCAL_STATE = (bytes([kind]) for kind in range(5))


def bytes_of(given: Given) -> bytes:
    if isinstance(given, Encoded):
        return given.encoded
    return given if isinstance(given, bytes) else bytes(memoryview(given))


def _number(number: int, size: int = 8) -> bytes:
    return number.to_bytes(size, "big")


def _string(text: Given) -> bytes:
    """A byte string behind its length in two bytes."""
    return _number(len(bytes_of(text)), 2) + bytes_of(text)


def _fixed(given: Given) -> bytes:
    """An address, or other 32 bytes."""
    if len(bytes_of(given)) != 32:
        raise ValueError(f"{len(bytes_of(given))} bytes, and not 32")
    return bytes_of(given)


def _listed(parts: Sequence[bytes], size: int = 4) -> bytes:
    """A list: its count, and then each."""
    return _number(len(parts), size) + b"".join(parts)


class _Reader:
    """Takes fields from bytes, one behind another, each as it is encoded. Where the bytes end early, it is a `ValueError`."""

    def __init__(self, encoded: bytes) -> None:
        self.encoded = encoded
        self.place = 0

    def take(self, count: int) -> bytes:
        begin, self.place = self.place, self.place + count
        if self.place > len(self.encoded):
            raise ValueError("the bytes end inside a field")
        return self.encoded[begin : self.place]

    def number(self, size: int) -> int:
        return int.from_bytes(self.take(size), "big")

    def string(self, size: int) -> bytes:
        """A byte string behind its length."""
        length = self.take(size)
        return length + self.take(int.from_bytes(length, "big"))

    def value(self) -> bytes:
        kind = self.take(1)
        return kind + (self.take(8) if kind == b"\1" else self.string(1))

    def state(self) -> bytes:
        count = self.take(1)
        return count + b"".join(self.string(1) + self.value() for _ in range(count[0]))

    def counts(self) -> bytes:
        return self.take(2)

    def row(self) -> bytes:
        return self.take(32) + self.string(2) + self.string(2) + self.take(4)


_VALUES: Dict[bytes, Callable[[_Reader], bytes]] = {
    _ROW: _Reader.row,
    _COUNTS: _Reader.counts,
    _KEY: _Reader.value,
    _LOCAL_STATE: _Reader.state,
}


def _items_of(read: _Reader) -> Iterator[Tuple[bytes, bytes]]:
    """The items of a ledger with their values."""
    yield _NEXT_ID, read.take(8)
    for _ in range(read.number(4)):
        app = read.take(8)
        yield _ROW + app, b"\1" + read.row()
        entries = [(read.string(1), read.value()) for _ in range(read.number(1))]
        kinds = [value[0] for _, value in entries]
        yield _COUNTS + app, bytes([1, kinds.count(1), kinds.count(2)])
        yield from ((_KEY + app + key, b"\1" + value) for key, value in entries)
    for _ in range(read.number(4)):
        yield _LOCAL_STATE + read.take(40), b"\1" + read.state()


def _item_and_value(read: _Reader) -> Tuple[bytes, bytes]:
    """An entry of items."""
    kind = read.take(1)
    if kind == _NEXT_ID:
        return kind, read.take(8)
    if kind not in _VALUES:
        raise ValueError("no item has this kind")
    item = kind + read.take(40 if kind == _LOCAL_STATE else 8) + (read.string(1) if kind == _KEY else b"")
    present = read.take(1)
    return item, present if present == ABSENT else present + _VALUES[kind](read)


# ---- what is given and answered

_S = TypeVar("_S", bound="Encoded")


@dataclass(frozen=True)
class Encoded:
    """Something by its bytes. Which bytes are one is for the machine to say: nothing is tested here."""

    encoded: bytes

    @classmethod
    def from_hex(cls: Type[_S], digits: str) -> _S:
        """From hexadecimal digits of either case. Another character or an odd count is a `ValueError`; `avm` refuses it too."""
        if len(digits) % 2 or re.search("[^0-9a-fA-F]", digits):
            raise ValueError("another character than hexadecimal digits, or an odd count of them")
        return cls(bytes.fromhex(digits))

    def hex(self) -> str:
        """Its lower-case hexadecimal digits."""
        return self.encoded.hex()

    def __bytes__(self) -> bytes:
        return self.encoded

    def __len__(self) -> int:
        return len(self.encoded)


class Program(Encoded):
    """An approval program or a clear state program."""


class Ledger(Encoded):
    """A ledger."""

    @classmethod
    def empty(cls) -> "Ledger":
        """The ledger without applications and local states, in which the first application gets the id 1."""
        return cls(_number(1) + bytes(8))

    def items(self) -> Dict[bytes, bytes]:
        """Its items with their values. The bytes have to be a ledger: where they end early, it is a `ValueError`."""
        return dict(_items_of(_Reader(self.encoded)))

    def global_state(self, application: int) -> Dict[bytes, Union[int, bytes]]:
        """The keys of an application with their values, by rising key; none where there is no such application."""
        begun = _KEY + _number(application)
        found = ((item[10:], value[1:]) for item, value in self.items().items() if item[:9] == begun)
        return {key: int.from_bytes(value[1:], "big") if value[0] == 1 else value[2:] for key, value in found}

    @classmethod
    def of_items(cls, values: Mapping[bytes, bytes]) -> "Ledger":
        """The ledger that has these items with their values, and no others. Counts are those of the keys: they are not looked at."""
        there = sorted((item, value[1:]) for item, value in values.items() if value != ABSENT and item != _NEXT_ID)
        keys: Dict[bytes, List[Tuple[bytes, bytes]]] = {}
        for item, value in there:
            if item[:1] == _KEY:
                # A key stands behind its length, by which a ledger does not order keys.
                keys.setdefault(item[1:9], []).append((item[10:], item[9:] + value))
        states = {app: _listed([encoded for _, encoded in sorted(of)], 1) for app, of in keys.items()}
        apps = [item[1:] + value + states.get(item[1:], b"\0") for item, value in there if item[:1] == _ROW]
        local_states = [item[1:] + value for item, value in there if item[:1] == _LOCAL_STATE]
        return cls(values[_NEXT_ID] + _listed(apps) + _listed(local_states))


class Block(Encoded):
    """A block."""


class Header(Encoded):
    """The round of a block."""

    @classmethod
    def of(cls, round: int, latest_timestamp: int = 0, min_fee: int = 1000, min_balance: int = 100_000, max_life: int = 1000) -> "Header":
        """A header of these fields."""
        return cls(b"".join(map(_number, (round, latest_timestamp, min_fee, min_balance, max_life))))


class Call(Encoded):
    """A call."""

    @classmethod
    def of(
        cls,
        sender: Given,
        application: int = 0,
        completion: Completion = Completion.NoOp,
        arguments: Sequence[Given] = (),
        *,
        accounts: Sequence[Given] = (),
        foreign_applications: Sequence[int] = (),
        approval_program: Given = b"",
        clear_program: Given = b"",
        global_schema: Tuple[int, int] = (0, 0),
        local_schema: Tuple[int, int] = (0, 0),
        fee: int = 0,
        first_valid: int = 0,
        last_valid: int = 0,
        note: Given = b"",
        lease: Given = bytes(32),
        rekey_to: Given = bytes(32),
    ) -> "Call":
        """A call of these fields: application 0 is a creation, and a schema has its uints before its byte strings. A number beyond the
        width of its field is an `OverflowError`, and an address of another length than 32 a `ValueError`."""
        numbers = b"".join(map(_number, (fee, first_valid, last_valid)))
        lists = _listed([_string(each) for each in arguments], 1) + _listed([_fixed(each) for each in accounts], 1)
        programs = _string(approval_program) + _string(clear_program)
        schemas = b"".join(_number(count, 1) for schema in (global_schema, local_schema) for count in schema)
        terms = _fixed(sender) + numbers + _string(note) + _fixed(lease) + _fixed(rekey_to) + _number(application)
        return cls(terms + _number(completion, 1) + lists + _listed(list(map(_number, foreign_applications)), 1) + programs + schemas)

    def parties(self) -> Tuple[int, List[bytes]]:
        """The application, and the accounts: the sender's and those beside it. The bytes have to be a call: where they end early, it
        is a `ValueError`."""
        read = _Reader(self.encoded)
        sender = read.take(32)
        read.take(3 * 8)
        read.string(2)
        read.take(2 * 32)
        application = read.number(8)
        read.take(1)
        for _ in range(read.number(1)):
            read.string(2)
        return application, [sender, *(read.take(32) for _ in range(read.number(1)))]


class Calls(Encoded):
    """A list of calls."""

    @classmethod
    def of(cls, calls: Iterable[Given]) -> "Calls":
        """These calls, in this order."""
        return cls(_listed([bytes_of(call) for call in calls]))


class Items(Encoded):
    """Items with their values, each by its bytes."""

    @classmethod
    def of(cls, values: Mapping[bytes, bytes]) -> "Items":
        """These items with their values."""
        return cls(_listed([item + value for item, value in values.items()]))

    def values(self) -> Dict[bytes, bytes]:
        """Each item and its value, in the order in which they stand. Where the bytes end early, it is a `ValueError`."""
        read = _Reader(self.encoded)
        return dict(_item_and_value(read) for _ in range(read.number(4)))


@dataclass(frozen=True)
class End:
    """How a call ends.

    `number` is that of the fault or of the reason, and `place` that of the faulting instruction, in bytes from the program's beginning;
    of an ending that has none they are 0.
    """

    ending: Ending
    number: int
    place: int

    @property
    def fault(self) -> Optional[Fault]:
        """What stopped the program, where one faulted."""
        return Fault(self.number) if self._faulted else None

    @property
    def why(self) -> Optional[Why]:
        """Why no program ran, where the call is refused."""
        return Why(self.number) if self.ending == Ending.CALL_REFUSED else None

    @property
    def named(self) -> str:
        """As commands print it: the ending, with the name of the fault or of the reason, behind the number of the entry, if any."""
        found = self.fault or self.why
        return self._with(found.name if found else "")

    @property
    def _faulted(self) -> bool:
        return self.ending in (Ending.FAULTED, Ending.CLEARED_FAULTED)

    def _with(self, number: str) -> str:
        place = str(self.place) if self._faulted else ""
        return " ".join(word for word in (self.ending.words, number, place) if word)

    def __str__(self) -> str:
        """As `named`, with numbers."""
        return self._with(str(self.number or ""))


@dataclass(frozen=True)
class Difference(End):
    """The first entry of a block whose call ends otherwise than the entry says, and how it ends. Entries are counted from 1."""

    entry: int

    def _with(self, number: str) -> str:
        return f"{self.entry} {super()._with(number)}"


@dataclass(frozen=True)
class Attempt:
    """What a call over known items comes to: the item that it `needs`, or how it ends and the items with their values that it writes.

    docs/FORMATS.md has the bytes of both. An item that is written as absent is to be deleted, and with an application all keys and the
    counts of its global state.
    """

    needs: Optional[bytes] = None
    end: Optional[End] = None
    writes: Optional[Items] = None


@dataclass(frozen=True)
class Verdict:
    """What replaying a block says of it. It is true where the block agrees.

    `status` is DONE, WRONG_BASE, WRONG_OUTCOME or WRONG_STATE. `digest` is the SHA-256 of the ledger after the block, where it
    agrees, and `difference` the first entry that differs, where an outcome is wrong.
    """

    status: Status
    digest: Optional[bytes] = None
    difference: Optional[Difference] = None

    @property
    def agrees(self) -> bool:
        """Whether the block replays over the ledger to what it says."""
        return self.status == Status.DONE

    def agreed(self) -> bytes:
        """The digest of the ledger after the block. Where the block does not agree, `WrongBase`, `WrongOutcome` or `WrongState`."""
        if self.digest is not None:
            return self.digest
        raise differs(self.status, self.difference)

    def __bool__(self) -> bool:
        return self.agrees

    def __str__(self) -> str:
        if self.digest is not None:
            return f"agrees {self.digest.hex()}"
        words = words_of(self.status.name)
        return f"{words} {self.difference}" if self.difference else words


@dataclass(frozen=True)
class View:
    """What stands in the machine after some steps of a call, as the text that `avm debug` prints."""

    text: str

    def __str__(self) -> str:
        return self.text


@dataclass(frozen=True)
class Answer:
    """What a program writes: its exit status, which is DONE, REFUSED or USAGE, and its standard output."""

    status: Status
    output: bytes

    @property
    def text(self) -> str:
        """The output as text."""
        return self.output.decode()


# ---- what is refused


class AvmError(Exception):
    """What a function refuses; each status that refuses has a class of its own.

    `status` is the function's, and `kind` says what is wrong with bytes that may be wrong in more than one way. `reason` is the line
    that a command of `avm` prints for the same, where one does.
    """

    def __init__(self, status: Status, kind: Optional[Named] = None, where: Optional[int] = None, reason: Optional[str] = None) -> None:
        super().__init__(status, kind, where, reason)
        self.status, self.kind, self.reason = status, kind, reason
        self._where = where

    def __str__(self) -> str:
        return self.reason or " ".join([words_of(self.status.name), *([self.kind.name] if self.kind else [])])


class NoText(AvmError):
    """The text is not UTF-8."""


class NotAssembled(AvmError):
    """The text has a fault, as source text. `kind` is an `AsmFault`."""

    @property
    def line(self) -> Optional[int]:
        """The line of the fault, counted from 1."""
        return self._where


class NoProgram(AvmError):
    """The bytes break a rule of programs. `kind` is a `Rule`; for `Rule.Code` the `CodeFault`."""

    @property
    def place(self) -> Optional[int]:
        """The place of the instruction, where the rule is one of instructions."""
        return self._where


class NoLedger(AvmError):
    """The bytes are no ledger. `kind` is a `LedgerFault`."""


class NoBlock(AvmError):
    """The ledger's bytes are one, the block's are no block. `kind` is a `BlockFault`."""


class NoHeader(AvmError):
    """The bytes are no header."""


class NoCall(AvmError):
    """The bytes are no call, or one that breaks a rule of calls; or no list of such calls. `kind` is a `CallFault`."""

    @property
    def call(self) -> Optional[int]:
        """Of `propose`, the number of the call in the list, counted from 1, where the fault is one call's."""
        return self._where


class NoItems(AvmError):
    """The bytes are no items with their values. `kind` is a `LedgerFault`."""


class WrongBase(AvmError):
    """The block stands over another ledger."""


class WrongOutcome(AvmError):
    """An entry's call ends otherwise than the entry says, as `difference` tells."""

    difference: Optional[Difference] = None


class WrongState(AvmError):
    """All calls end as the block says, and the ledger after them has another digest."""


class NoEntry(AvmError):
    """The block has no entry of this number."""


class NoRun(AvmError):
    """No program runs in the entry's call: it is refused, or clears what is left of a gone application."""


class Ended(AvmError):
    """The program ends before so many steps."""


class TooLong(AvmError):
    """The trace has more than 67,108,864 bytes."""


class NeedsThreads(AvmError):
    """The words are `propose`, which takes threads: no command here. `Avm.propose` takes none."""


_REFUSALS: Dict[Status, Type[AvmError]] = {
    Status.PROPOSE: NeedsThreads, Status.NO_TEXT: NoText, Status.NOT_ASSEMBLED: NotAssembled, Status.NO_PROGRAM: NoProgram,
    Status.NO_LEDGER: NoLedger, Status.NO_BLOCK: NoBlock, Status.WRONG_BASE: WrongBase, Status.WRONG_OUTCOME: WrongOutcome,
    Status.WRONG_STATE: WrongState, Status.NO_ENTRY: NoEntry, Status.NO_RUN: NoRun, Status.ENDED: Ended, Status.NO_HEADER: NoHeader,
    Status.NO_CALL: NoCall, Status.NO_ITEMS: NoItems, Status.TOO_LONG: TooLong,
}  # fmt: skip
# What may be wrong with bytes, and the words in front of it in the line of a command.
TROUBLES: Dict[Status, Tuple[Type[Named], str]] = {
    Status.NOT_ASSEMBLED: (AsmFault, "refused asm"),
    Status.NO_PROGRAM: (Rule, "refused check"),
    Status.NO_LEDGER: (LedgerFault, "refused ledger"),
    Status.NO_BLOCK: (BlockFault, "refused block"),
    Status.NO_CALL: (CallFault, "refused call"),
    Status.NO_ITEMS: (LedgerFault, ""),
}
_LINES = {Status.NO_TEXT: "refused input", Status.NO_HEADER: "refused header", Status.TOO_LONG: "refused trace TooLong"}


def refusal(status: Status) -> AvmError:
    """The error for a status that says all."""
    return _REFUSALS.get(status, AvmError)(status, reason=_LINES.get(status))


def trouble(status: Status, place: int, number: int, code: int = 0) -> AvmError:
    """The error for what is wrong with bytes, by the numbers of `struct avm_trouble`."""
    kinds, line = TROUBLES[status]
    kind, where = kinds(number), place or None
    if kind is Rule.Code:
        kind, where = CodeFault(code), place
    words = [line, str(kind), *([str(where)] if where is not None else [])]
    if status in (Status.NOT_ASSEMBLED, Status.NO_CALL):
        words[1:] = reversed(words[1:])
    # No command reads items, or a list of calls.
    is_printed = line and (status != Status.NO_CALL or where)
    return _REFUSALS[status](status, kind, where, " ".join(words) if is_printed else None)


def differs(status: Status, difference: Optional[Difference]) -> AvmError:
    """The error for a block that does not agree."""
    if difference is None:
        return refusal(status)
    error = WrongOutcome(status, reason=f"wrong outcome {difference.named}")
    error.difference = difference
    return error
