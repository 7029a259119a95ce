#!/usr/bin/env python3
"""Encodes the calls and the block of an example from its document, a second time and without the programs.

    python3 encode.py NAME.json           writes NAME.calls and NAME.block, and NAME.forged
                                         where expected.json has a forged block
    python3 encode.py --check NAME.json   compares these files with what it would write
    python3 encode.py NAME.code           prints the digits of a program

No program runs here. How each call ends, and the ledger after, are worked out by hand in
expected.json; the bytes of a program, with their places, stand in the .code file beside the
source. Of documents it reads what the examples have: an application with its state, sources
and transactions. All is put together as docs/FORMATS.md says, field by field.
"""
import base64
import hashlib
import json
import sys
from pathlib import Path

# Faults and refusals are numbered from 1 (crates/avm_call/specs/OutcomeEncoding.antt).
FAULTS = ["Err", "Underflow", "WrongType", "Compare", "Overflow", "Negative", "DivZero", "TooLong",
          "Range", "BtoiLength", "StackFull", "NoConstant", "BadField", "NoTxn", "NoArg", "NoAccount",
          "NoForeign", "NotOptedIn", "NoSuchApp", "Schema", "KeyLength", "FinalDepth", "FinalBytes",
          "Assert"]
REFUSALS = ["NoApp", "AlreadyIn", "NotIn", "IdsEnd"]


# Numbers are big-endian; a byte string stands behind its length, a list behind its count.

def u8(n): return n.to_bytes(1, "big")
def u16(n): return n.to_bytes(2, "big")
def u32(n): return n.to_bytes(4, "big")
def u64(n): return n.to_bytes(8, "big")
def short_string(s): return u8(len(s)) + s
def string(s): return u16(len(s)) + s
def listed(count, encodings): return count(len(encodings)) + b"".join(encodings)


def address(text):
    """The 32 bytes of an address; 4 more are their checksum."""
    return base64.b32decode(text + "=" * 6)[:32]


def state(entries):
    """A state, from its keys with numbers or byte strings."""
    encoded = (short_string(key) + (u8(1) + u64(value) if isinstance(value, int) else u8(2) + short_string(value))
               for key, value in sorted(entries.items()))
    return listed(u8, list(encoded))


def schema(members, uints, strings):
    return u8(members.get(uints, 0)) + u8(members.get(strings, 0))


def program(path):
    """The bytes of a .code file: lines of a place, bytes, and after two spaces an explanation."""
    code = b""
    for line in path.read_text().splitlines():
        if line.strip().startswith("#"):
            continue
        place, encoded = line.split(maxsplit=1)
        if int(place) != len(code):
            sys.exit(f"{path}: {line}: the place is {len(code)}")
        code += bytes.fromhex(encoded.split("  ")[0])
    return code


class Encoding:
    """The encodings of one document."""

    def __init__(self, path):
        self.path = path
        self.told = json.loads(path.read_text())
        self.expected = json.loads((path.parent / "expected.json").read_text())

    def source(self, field, index, number):
        """The program whose source the document gives for a place."""
        for source in self.told["sources"]:
            if source["field-name"] == field and source.get(index, 0) == number:
                return self.program_of(source["source"])
        return b""

    def program_of(self, text):
        """The bytes of the .code file beside the source file with this text."""
        for code in [*self.path.parent.glob("*.code"), *self.path.parent.parent.glob("*.code")]:
            if code.with_suffix(".teal").read_text() == text:
                return program(code)
        sys.exit(f"{self.path}: no file has the source {text[:60]!r}")

    def header(self):
        names = {"round": 0, "latest-timestamp": 0, "min-fee": 1000, "min-balance": 100000, "max-life": 1000}
        return b"".join(u64(self.told.get(name, default)) for name, default in names.items())

    def of_application(self, app):
        """The programs and the schemas of an application."""
        codes = [self.source(field, "app-index", app["id"]) for field in ("approv", "clearp")]
        schemas = [schema(app["params"].get(name, {}), "num-uint", "num-byte-slice")
                   for name in ("global-state-schema", "local-state-schema")]
        return b"".join([*map(string, codes), *schemas])

    def of_call(self, index, txn):
        """The programs and the schemas that a call brings."""
        codes = [self.source(field, "txn-index", index) for field in ("apap", "apsu")]
        schemas = [schema(txn.get(name, {}), "nui", "nbs") for name in ("apgs", "apls")]
        return b"".join([*map(string, codes), *schemas])

    def application(self, app):
        def value(told):
            return told["uint"] if told["type"] == 2 else base64.b64decode(told["bytes"])
        entries = {base64.b64decode(one["key"]): value(one["value"]) for one in app["params"]["global-state"]}
        return u64(app["id"]) + address(app["params"]["creator"]) + self.of_application(app) + state(entries)

    def before(self):
        apps = self.told.get("apps", [])
        next_id = 1 + max((app["id"] for app in apps), default=0)
        return u64(next_id) + listed(u32, [self.application(app) for app in apps]) + listed(u32, [])

    def call(self, index, txn):
        return b"".join([
            address(txn["snd"]),
            *(u64(txn[name]) for name in ("fee", "fv", "lv")),
            string(base64.b64decode(txn.get("note", ""))),
            bytes(32),  # no lease
            bytes(32),  # no new key
            u64(txn.get("apid", 0)),
            u8(txn.get("apan", 0)),
            listed(u8, [string(base64.b64decode(argument)) for argument in txn.get("apaa", [])]),
            listed(u8, [address(account) for account in txn.get("apat", [])]),
            listed(u8, []),  # no foreign applications
            self.of_call(index, txn),
        ])

    def calls(self):
        return [self.call(index, one["txn"]) for index, one in enumerate(self.told["txns"])]

    # What is expected, where an account's address is one byte, 32 times over.

    def who(self, name):
        return bytes.fromhex(self.expected["accounts"][name]) * 32

    def named(self, entries):
        """A state; the value `@NAME` is the address of an account, other text stands for itself."""
        def value(told):
            return told if isinstance(told, int) else self.who(told[1:]) if told.startswith("@") else told.encode()
        return state({key.encode(): value(told) for key, told in entries.items()})

    def after(self, told):
        """The ledger after: application 1, which was there or which the first call made."""
        apps = self.told.get("apps")
        made = self.of_application(apps[0]) if apps else self.of_call(0, self.told["txns"][0]["txn"])
        app = u64(1) + self.who(told["creator"]) + made + self.named(told["global state"])
        local = sorted((self.who(name), entries) for name, entries in told["local states"].items())
        locals_ = [who + u64(1) + self.named(entries) for who, entries in local]
        return u64(told["next id"]) + listed(u32, [app]) + listed(u32, locals_)

    def block(self, ends, after):
        """A block of profile 3, as `propose` makes it; the i-th call has the timestamp i."""
        entries = [u64(i) + call + outcome(end)
                   for i, (call, end) in enumerate(zip(self.calls(), ends, strict=True), 1)]
        body = (b"AVMB" + u8(2) + u8(3) + digest(self.before()) + self.header()
                + listed(u32, entries) + digest(self.after(after)))
        return body + digest(body)

    def files(self):
        """Each file's name and its lines, as bytes."""
        expected, name = self.expected, self.path.with_suffix("")
        ends = [end["outcome"] for end in expected["ends"]]
        yield f"{name}.calls", [self.before(), self.header(), *self.calls()]
        yield f"{name}.block", [self.before(), self.block(ends, expected["after"])]
        if "forged" in expected:
            forged = expected["forged"]
            ends[forged["entry"] - 1] = forged["outcome"]
            yield f"{name}.forged", [self.before(), self.block(ends, forged["after"])]


def outcome(words):
    """How a call ends, in the words that `avm replay` has for it."""
    kind, *more = words.split()
    if kind == "faulted":
        return u8(2) + u8(FAULTS.index(more[0]) + 1) + u16(int(more[1]))
    if kind == "refused":
        return u8(3) + u8(REFUSALS.index(more[0]) + 1)
    if kind == "cleared":
        causes = {"gone": u8(0), "rejected": u8(1)}
        return u8(4) + (causes[more[0]] if more[0] in causes else outcome(" ".join(more)))
    return {"approved": u8(0), "rejected": u8(1)}[kind]


def digest(encoding):
    return hashlib.sha256(encoding).digest()


def main(words):
    check = words[:1] == ["--check"]
    path = Path(words[-1])
    if path.suffix == ".code":
        print(program(path).hex())
        return
    for name, lines in Encoding(path).files():
        text = "".join(line.hex() + "\n" for line in lines)
        if not check:
            Path(name).write_text(text)
        elif Path(name).read_text() != text:
            sys.exit(f"{name} is not what {path} describes")


if __name__ == "__main__":
    main(sys.argv[1:])
