"""What `run` and `trace` answer where it is as long as a text may be, one byte longer, and far longer, worked out by the rules of
docs/JSON.md.

The program pushes some numbers and drops them, makes a byte string of 4,096 bytes, and doubles it over and over, so that each state
shows it once more. The digits of the numbers make up the rest, to the byte.
"""

import base64
import hashlib
import json

MOST_TEXT = 67_108_864
MOST_COST = 700
FINAL_DEPTH = 22
APPROVES = bytes.fromhex("038101")
CREATOR = "A" * 52 + "Y5HFKQ"
DUP, POP, CONCAT = ("dup", b"\x49"), ("pop", b"\x48"), ("concat", b"\x50")

# The numbers, so many pairs of `dup` and `pop`, and so many `dup`s; and a number with a digit more where the answer is a byte longer.
LONGEST_ENTRY = ([10**17] * 5 + [10**10] + [0] * 51, 49, 153), 10
LONGEST_TRACE = ([10**17, 10**8] + [0] * 7, 35, 153), 100
LONGEST_RUN = ([10**17] * 4 + [10**7, 0], 35, 153), 100


def number(value, size):
    return value.to_bytes(size, "big")


def varuint(value):
    return bytes([value]) if value < 128 else bytes([value % 128 + 128]) + varuint(value // 128)


def string(text):
    return number(len(text), 2) + text


# ---- the program


def steps_of(numbers, pairs, doubled):
    """The instructions, each with its line and its bytes. They leave more than one value."""
    pushed = [step for n in numbers for step in ((f"pushint {n}", b"\x81" + varuint(n)), POP)]
    return [*pushed, ("pushbytes 0x61", b"\x80\x01a"), *[DUP, CONCAT] * 12, *[DUP, POP] * pairs, *[DUP] * doubled]


def program_of(steps):
    return b"\x03" + b"".join(code for _, code in steps)


def after(stack, line):
    """The stack behind one of the instructions of these programs."""
    word, _, constant = line.partition(" ")
    if word == "dup":
        return [*stack, stack[-1]]
    if word == "pop":
        return stack[:-1]
    if word == "concat":
        return [*stack[:-2], stack[-2] + stack[-1]]
    return [*stack, int(constant) if word == "pushint" else b"a"]


# ---- what is shown


def laid_out(document):
    return json.dumps(document, indent=2, sort_keys=True).encode() + b"\n"


def value(one):
    if isinstance(one, int):
        return {"bytes": "", "type": 2, "uint": one}
    return {"bytes": base64.b64encode(one).decode(), "type": 1, "uint": 0}


def element_of(steps):
    """What the call of a program of these steps does."""
    place, stack, states = 1, [], []
    for line, (text, code) in enumerate([*steps, ("", b"")], 1):
        states.append({"line": line, "pc": place, "scratch": [], "stack": [value(one) for one in stack]})
        if text:
            place, stack = place + len(code), after(stack, text)
    ended = f"faulted FinalDepth {place}"
    return {
        "app-call-messages": ["ApprovalProgram", "REJECT", ended],
        "app-call-trace": states,
        "budget-added": MOST_COST,
        "budget-consumed": len(steps),
        "disassembly": ["#pragma version 3", *(text for text, _ in steps), ""],
        "global-delta": [],
        "local-deltas": [],
        "outcome": ended,
    }


def response(elements):
    return {"error": "", "protocol-version": "", "txns": elements}


# ---- the inputs


def ledger_of(program, next_id):
    """A ledger with an application that has the program, in bytes and as it is shown."""
    programs = string(program) + string(APPROVES)
    encoded = number(next_id, 8) + number(1, 4) + number(1, 8) + bytes(32) + programs + bytes(5) + bytes(4)
    schema = {"num-byte-slice": 0, "num-uint": 0}
    params = {
        "approval-program": base64.b64encode(program).decode(),
        "clear-state-program": base64.b64encode(APPROVES).decode(),
        "creator": CREATOR,
        "global-state": [],
        "global-state-schema": schema,
        "local-state-schema": schema,
    }
    digests = {"ledger": hashlib.sha256(encoded).hexdigest()}
    return encoded, {"accounts": [], "apps": [{"id": 1, "params": params}], "digests": digests, "next-id": next_id}


def block_lines(program, place):
    """A ledger and a block of one call, which ended with a wrong depth at a place."""
    ledger = ledger_of(program, 2)[0]
    digest = hashlib.sha256(ledger).digest()
    call = bytes(32) + bytes(24) + bytes(2 + 32 + 32) + number(1, 8) + bytes(1 + 3 + 4 + 4)
    ended = b"\x02" + number(FINAL_DEPTH, 1) + number(place, 2)
    body = b"AVMB\x02\x03" + digest + bytes(5 * 8) + number(1, 4) + number(1, 8) + call + ended + digest
    return b"".join(part.hex().encode() + b"\n" for part in (ledger, body + hashlib.sha256(body).digest()))


# ---- inputs with their answers


def entry_case(steps, place):
    """Of `trace --entry 1`: each digit of the recorded place is a byte of the answer."""
    element = {**element_of(steps), "recorded-outcome": f"faulted FinalDepth {place}"}
    return block_lines(program_of(steps), place), laid_out(element)


def trace_case(steps, place):
    element = {**element_of(steps), "recorded-outcome": f"faulted FinalDepth {place}"}
    return block_lines(program_of(steps), place), laid_out(response([element]))


def run_case(steps, next_id):
    """Each digit of the next id is a byte of the answer."""
    ledger = ledger_of(program_of(steps), next_id)[1]
    call = {"txn": {"apid": 1, "snd": CREATOR, "type": "appl"}}
    return json.dumps({**ledger, "txns": [call]}).encode(), laid_out({"after": ledger, **response([element_of(steps)])})


def longest():
    """Words, and the input whose answer is as long as may be, with that answer, and the input whose answer is a byte longer."""
    kinds = (
        (["trace", "--entry", "1"], LONGEST_ENTRY, entry_case),
        (["trace"], LONGEST_TRACE, trace_case),
        (["run"], LONGEST_RUN, run_case),
    )
    for words, (parts, last), case in kinds:
        steps = steps_of(*parts)
        given, text = case(steps, last)
        assert len(text) == MOST_TEXT
        yield words, given, text, case(steps, 10 * last)[0]


def far_too_long():
    """The input of a trace with as many `dup`s as a program can pay, of more than a gigabyte."""
    program = program_of(steps_of([], 0, MOST_COST - len(steps_of([], 0, 0))))
    return block_lines(program, len(program))


def of_pages():
    """Blocks of one call, with the trace that a page has of it, `null` where the page would be too long, and how the call ends: a trace of
    some 48 MiB, one that makes a page of more than 64 MiB, and one of more than a gigabyte."""
    for name, doubled in (("a page with a long trace", 128), ("a page whose trace would be too long", 153)):
        steps = steps_of([], 0, doubled)
        program = program_of(steps)
        given, trace = trace_case(steps, len(program))
        yield name, given, trace.decode() if doubled == 128 else "null", f"faulted FinalDepth {len(program)}"
    given = far_too_long()
    place = bytes.fromhex(given.split()[1].decode())
    yield "a page whose trace has more than a gigabyte", given, "null", f"faulted FinalDepth {int.from_bytes(place[-66:-64], 'big')}"
