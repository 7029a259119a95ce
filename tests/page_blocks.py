"""The blocks of which tests/page opens the pages, each behind the ledger before it."""

import base64
import hashlib
import json
from pathlib import Path

import stored

EXAMPLES = Path(stored.TOP, "examples")
MOST_UINT = 2**64 - 1
PROGRAM = "#pragma version 3\ntxna ApplicationArgs 0\ntxna ApplicationArgs 1\napp_global_put\npushint 1\n"
# What stands in a note, in an argument, and as a key and a value of a state: at most 64 bytes each.
HOSTILE = (
    b"</script><script>document.title='broken'</script>", b"<img src=x onerror=alert(1)>", b"-->", b"]]>", "\u2028\u2029".encode(),
    b"\xff\xfe\xc0\x80", b'"><b>bold</b>&lt;&amp;', b"<!--<script>", b"", b"\\\"'`${alert(1)}", b"constructor", b"\x00\n\r\x7f",
    b"__proto__", b"a  b ", b"12345678", b"\x80" * 8,
)  # fmt: skip


def sealed(body):
    """A block's line of digits, from its bytes before its last digest."""
    return (body + hashlib.sha256(body).digest()).hex()


def after_of(given):
    """The digest of the ledger after, as the block names it."""
    return bytes.fromhex(given.decode().split()[1])[-64:-32]


def with_end(given, end):
    """The ledger and the block with other bytes before the last digest."""
    ledger, block = given.decode().split()
    body = bytes.fromhex(block)[:-32]
    return f"{ledger}\n{sealed(body[: -len(end)] + end)}\n".encode()


def proposed(test, lines):
    """A ledger and the block that one worker makes of the calls behind it."""
    return (lines.split()[0] + "\n" + test.run(test.avm, "propose", "--workers", "1", given=lines.encode())).encode()


def hostile(test):
    """A block whose calls put strangers' texts into notes, arguments and a state; and the greatest numbers."""
    who = json.loads((EXAMPLES / "counter/counter.json").read_text())["txns"][0]["txn"]["snd"]
    encoded = [base64.b64encode(text).decode() for text in HOSTILE]
    always = {"type": "appl", "snd": who, "apid": 1, "fee": MOST_UINT, "fv": 2**53 + 1, "lv": MOST_UINT, "apfa": [MOST_UINT], "apat": [who]}
    calls = [{**always, "apaa": [key, value], "note": note, "lx": base64.b64encode(bytes([number + 1] * 32)).decode()}
             for number, (key, value, note) in enumerate(zip(encoded, reversed(encoded), encoded))]  # fmt: skip
    greatest = [{"key": "bW9zdA==", "value": {"type": 2, "uint": MOST_UINT}}]
    params = {"creator": who, "clear-state-program": "A4EB", "global-state": greatest,
              "global-state-schema": {"num-byte-slice": 63, "num-uint": 1}}  # fmt: skip
    document = {
        "round": MOST_UINT, "latest-timestamp": MOST_UINT, "apps": [{"id": 1, "params": params}],
        "sources": [{"field-name": "approv", "app-index": 1, "source": PROGRAM}], "txns": [{"txn": call} for call in calls],
    }  # fmt: skip
    return proposed(test, test.run(test.avm_json, "lines", given=json.dumps(document).encode()))


def many(test):
    """The first call of the counter, where 250 accounts are opted in."""
    ledger, header, call = (EXAMPLES / "counter/counter.calls").read_text().split()[:3]
    opted_in = "".join(f"{account:064x}{1:016x}00" for account in range(1, 251))
    return proposed(test, f"{ledger[:-8]}{250:08x}{opted_in}\n{header}\n{call}\n")


def blocks(test):
    """Each block with its name and the words behind `page`. A name with a comma is one example's in another form: of it the entry that
    was asked for, and those that end otherwise than the block says, are stepped through, and of the others all."""
    examples = {name: (EXAMPLES / name / f"{name}.block").read_bytes() for name in ("counter", "token", "vote")}
    cases = {name: given for name, _, given, _, _ in stored.json_cases()}
    forged = (EXAMPLES / "token/token.forged").read_bytes()
    for name, given in examples.items():
        yield name, given, ()
    yield "token, forged", forged, ()
    yield "counter, wrong outcome", with_end(examples["counter"], b"\x01" + after_of(examples["counter"])), ()
    yield "counter, wrong state", with_end(examples["counter"], bytes(32)), ()
    yield "token, forged, entry 4", forged, ("--entry", "4")
    yield "token, entry 5", examples["token"], ("--entry=5",)
    yield "hostile", hostile(test), ()
    yield "many local states", many(test), ()
    yield "every outcome", cases["response-every-outcome"], ()
    yield "every outcome, entry 3", cases["response-every-outcome"], ("--entry", "+3")
    yield "wrong entries", cases["response-wrong-entries"], ()
    yield "creations", (creations := cases["response-creation-and-delete"]), ()
    yield "creations, wrong where no program runs", with_end(creations, b"\x04\x01" + after_of(creations)), ()
    yield "no entries", cases["response-no-entries"], ()
    yield "too long", cases["response-refused-too-long"], ()
