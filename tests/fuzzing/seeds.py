"""The first inputs of the fuzz targets, from examples/ and the rows of crates/rows, and the stored ones of corpus/.

A stored input is a line of digits in corpus/TARGET. Inputs of check and list are programs, those of assemble texts; of answer and json a
byte that chooses, and what the command reads; of diagnose a byte that chooses, and bytes that may be refused; of the others a ledger's
length, two numbers that choose, a ledger and a block.
"""

import hashlib
import sys
from pathlib import Path

HERE = Path(__file__).resolve().parent
TOP = HERE.parent.parent
sys.path.insert(0, str(TOP / "tests"))
import formats  # noqa: E402
import stored  # noqa: E402

PROGRAMS, TEXTS, CHOOSING = ("check", "list"), ("assemble",), ("answer", "json", "diagnose")
BLOCKS = ("replay", "apply", "state", "view", "trace", "attempt", "call", "propose")
TARGETS = (*PROGRAMS, *TEXTS, *BLOCKS, *CHOOSING)
LONGEST = {**dict.fromkeys(PROGRAMS, 1100), **dict.fromkeys(TEXTS, 4096), **dict.fromkeys((*BLOCKS, *CHOOSING), 6000)}
ANN, BOB = b"\xaa" * 32, b"\xbb" * 32
NOOP, OPT_IN, CLEAR = 0, 1, 3
AS_DIGITS, WORDS = 8, 16


def number(value, size):
    return value.to_bytes(size, "big")


def string(text, size=2):
    return number(len(text), size) + text


def entry_of_state(key, value):
    return string(key, 1) + (b"\x01" + number(value, 8) if isinstance(value, int) else b"\x02" + string(value, 1))


def ledger(program):
    """An application with this program as both of its own, in which ann is in."""
    state = b"\x02" + entry_of_state(b"k", 7) + entry_of_state(b"n", b"text")
    application = number(1, 8) + ANN + string(program) * 2 + bytes([8, 8, 4, 4]) + state
    return number(2, 8) + number(1, 4) + application + number(1, 4) + ANN + number(1, 8) + state


def call(sender, application, completion, programs=b"", schemas=bytes(4)):
    terms = sender + number(1000, 8) + number(500, 8) + number(1500, 8) + string(b"note")
    arguments = b"\x03" + string(b"k") + string(number(5, 8)) + string(b"n")
    lists = arguments + b"\x01" + BOB + b"\x01" + number(1, 8)
    programs = string(programs) * 2
    return terms + bytes(64) + number(application, 8) + number(completion, 1) + lists + programs + schemas


def block(base, calls):
    """A block that says that each call is approved, and that the ledger stays."""
    digest = hashlib.sha256(base).digest()
    header = b"".join(number(value, 8) for value in (500, 1600000000, 1000, 100000, 1000))
    entries = b"".join(number(at, 8) + call + b"\x00" for at, call in enumerate(calls, 1))
    body = b"AVMB\x02\x03" + digest + header + number(len(calls), 4) + entries + digest
    return body + hashlib.sha256(body).digest()


def pair(base, over, first=0, second=0):
    return number(len(base), 4) + bytes([first, second]) + base + over


def of_program(program):
    """Calls of a program: by who is in, by who is not, a creation, and a clearing."""
    base = ledger(program)
    calls = [call(ANN, 1, NOOP), call(BOB, 1, OPT_IN), call(BOB, 0, NOOP, program, bytes([4, 4, 4, 4])), call(ANN, 1, CLEAR)]
    return [pair(base, block(base, calls), first, 3) for first in range(len(calls))]


def lines(text):
    """The bytes of lines of digits, or none where the text is no such lines."""
    try:
        return [bytes.fromhex(line) for line in text.split()]
    except ValueError:
        return []


def collected():
    """The programs, texts, and ledgers with blocks that examples and rows have."""
    programs, texts, blocks, inputs = [], [], [], []
    for path in sorted((TOP / "examples").glob("*/*.teal")):
        texts.append(path.read_bytes())
    for path in sorted((TOP / "examples").glob("*/*.code")):
        encoded = (line.split("  ")[0].split()[1:] for line in path.read_text().splitlines() if not line.startswith("#"))
        programs.append(bytes.fromhex("".join(word for words in encoded for word in words)))
    for path in sorted((TOP / "examples").glob("*/*.[bf]*")):
        blocks.append(lines(path.read_text()))
    for words, given, answer, status in stored.commands():
        read = lines(given.decode(errors="replace"))
        if words[:1] == ["asm"]:
            texts.append(given)
            programs += lines(answer.decode()) if status == 0 else []
        elif words[:1] in (["check"], ["dis"]) and len(read) == 1:
            programs += read
        elif words[:1] in (["replay"], ["state"], ["debug"]) and len(read) == 2:
            blocks.append(read)
        inputs.append("\0".join(words).encode()[:200] + b"\n" + given)
    # The programs of rows are named in front of their bytes.
    answers = stored.rows("stdout")[0].split("\n")
    for line, answer in zip(answers, answers[1:]):
        if line.startswith("program ") and answer.startswith("= "):
            programs += lines(answer[2:])
    return programs, texts, blocks, inputs


def at_limits():
    """Programs and sources of about 1024 bytes, and programs that cost about 700: the limits of docs/MACHINE.md."""
    programs, texts = [], []
    for size in range(1022, 1032):
        count = size - len(bytes.fromhex("038000004822"))
        programs.append(b"\x03\x80" + bytes([count & 127 | 128, count >> 7]) + bytes(count) + b"\x48\x22")
        texts.append(b"#pragma version 3\npushbytes 0x" + b"00" * count + b"\npop\nintc_0\n")
    for cost in range(698, 703):
        programs.append(b"\x02" + b"\x22" * cost)
        texts.append(b"#pragma version 2\n" + b"err\n" * cost)
    return programs, texts


def answers(programs, texts, pairs, inputs):
    """Inputs of avm_c_answer: each command on what its function reads, and words as they are."""
    found = [b"\x00" + text for text in texts]
    found += [bytes([command + AS_DIGITS]) + program for program in programs for command in (1, 2)]
    found += [bytes([command + AS_DIGITS]) + it for it in pairs for command in (3, 4, 5)]
    for text in inputs:
        words, _, given = text.partition(b"\n")
        found.append(bytes([WORDS, len(words)]) + words + given)
    return found


def documents(pairs):
    """Inputs of avm_c_json: each command on ledgers and blocks, on documents, and words as they are."""
    found = [bytes([command + AS_DIGITS]) + it for it in pairs for command in range(8)]
    for path in sorted((TOP / "examples").glob("*/*.json")):
        found += [bytes([command]) + path.read_bytes() for command in (1, 2)]
    for _, words, given, _, _ in stored.json_cases():
        word = "\0".join(words).encode()
        if len(given) < LONGEST["json"] and len(word) < 256:
            found.append(bytes([WORDS, len(word)]) + word + given)
    return found


def diagnoses(programs, texts, pairs):
    """Inputs of avm_c_diagnose: texts, programs, ledgers, blocks, calls, items and headers, and statuses that say nothing of bytes."""
    found = [b"\0" + text for text in texts] + [b"\1" + program for program in programs]
    page = formats.examples(formats.PAGE.read_text())
    for base, over in (halves(it) for it in pairs):
        found += [b"\2" + base, b"\3" + over]
    lines = [line.split() for line in stored.rows("stdin")[0].split("\n")]
    found += [b"\4" + bytes.fromhex(words[1]) for words in lines if words[:1] == ["calldata"] and is_digits(words[1:])]
    found += [b"\4" + call(ANN, 0, NOOP, program, bytes([4, 4, 4, 4])) for program in programs] + [b"\4" + page["call"][0]]
    found += [b"\5" + bytes.fromhex(encoded) for name, encoded, _ in formats.EDGES if name == "items"] + [b"\5" + page["items"][0]]
    found += [b"\5" + items(program) for program in programs] + [b"\6" + page["header"][0]]
    return found + [bytes([7 + 8 * status]) for status in range(32)]


def halves(encoded):
    """The ledger and the block of an input."""
    front, length = 6, int.from_bytes(encoded[:4], "big")
    return encoded[front : front + length], encoded[front + length :]


def is_digits(words):
    return len(words) == 1 and len(words[0]) % 2 == 0 and set(words[0]) <= set("0123456789abcdef")


def items(program):
    """An item of each kind, with a value."""
    row = b"\x01" + ANN + string(program) * 2 + bytes([8, 8, 4, 4])
    state = b"\x02" + entry_of_state(b"k", 7) + entry_of_state(b"n", b"text")
    entries = [
        b"\x00" + number(2, 8), b"\x01" + number(1, 8) + row, b"\x02" + number(1, 8) + b"\x01\x01\x01",
        b"\x03" + number(1, 8) + string(b"k", 1) + b"\x01\x01" + number(7, 8), b"\x04" + ANN + number(1, 8) + b"\x01" + state,
    ]  # fmt: skip
    return number(len(entries), 4) + b"".join(entries)


def seeds():
    """The inputs of each target."""
    programs, texts, blocks, inputs = collected()
    pairs = [pair(base, over, first, 5) for base, over in blocks for first in (0, 3)]
    pairs += [it for program in dict.fromkeys(programs) if program for it in of_program(program)]
    long_programs, long_texts = at_limits()
    found = {target: programs + long_programs for target in PROGRAMS}
    found |= {target: texts + long_texts for target in TEXTS}
    found |= {target: list(pairs) for target in BLOCKS}
    found["answer"] = answers(programs, texts, pairs[::4], inputs)
    found["json"] = documents(pairs[::4])
    found["diagnose"] = diagnoses(programs + long_programs, texts + long_texts, pairs)
    for target in TARGETS:
        path = HERE / "corpus" / target
        found[target] += lines(path.read_text()) if path.exists() else []
        found[target] = [it for it in dict.fromkeys(found[target]) if len(it) <= LONGEST[target]]
    return found


def write(folder):
    """Writes the inputs to a folder for each target; gives how many there are."""
    counts = {}
    for target, inputs in seeds().items():
        place = Path(folder) / target
        place.mkdir(parents=True, exist_ok=True)
        for it in inputs:
            (place / hashlib.sha1(it).hexdigest()).write_bytes(it)
        counts[target] = len(inputs)
    return counts
