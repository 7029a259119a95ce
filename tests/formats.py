"""A reader of ledgers, items, headers, calls, lists of calls, outcomes and blocks that knows no more than docs/FORMATS.md says: fields,
their order, widths and bounds come from the tables of the page; the rules between fields stand here a second time. Whether a program
passes `avm check` is not tested further than by its version.

`compare` reads the examples of the page by it, the bytes of the folder examples/, and the stored rows of ledgers, calls and blocks.
"""

import hashlib
import re
from pathlib import Path

TOP = Path(__file__).resolve().parent.parent
PAGE = TOP / "docs/FORMATS.md"
CLEAR_STATE, UPDATE = 3, 4
# The rules of calls, in the order in which they are tested.
ORDER = re.findall(r"[A-Z]\w+", re.search(r"in the order (.*)", PAGE.read_text())[1])
# The definition of each bound that has one.
DEFINED = {
    ("value", "byte string"): ["avm_states/specs/Entries most_value_bytes"],
    ("entry of a state", "key"): ["teal_value/specs/Keys most_key_bytes"],
    ("application", "approval program"): ["teal_code/specs/Limits most_program_bytes"],
    ("application", "clear program"): ["teal_code/specs/Limits most_program_bytes"],
    ("application", "global schema"): ["avm_states/specs/Schemas most_global_entries"],
    ("application", "local schema"): ["avm_states/specs/Schemas most_local_entries"],
    ("local state", "state"): ["avm_states/specs/Schemas most_local_entries"],
    ("item", "key"): ["teal_value/specs/Keys most_key_bytes"],
    ("row", "approval program"): ["teal_code/specs/Limits most_program_bytes"],
    ("row", "clear program"): ["teal_code/specs/Limits most_program_bytes"],
    ("row", "global schema"): ["avm_states/specs/Schemas most_global_entries"],
    ("row", "local schema"): ["avm_states/specs/Schemas most_local_entries"],
    ("counts", "entries"): ["avm_states/specs/Schemas most_global_entries"],
    ("locals", "state"): ["avm_states/specs/Schemas most_local_entries"],
    ("call", "note"): ["avm_call/specs/CallRules most_note_bytes"],
    ("call", "arguments"): ["avm_call/specs/CallRules most_arguments", "avm_call/specs/CallRules most_argument_bytes"],
    ("call", "accounts"): ["avm_call/specs/CallRules most_accounts"],
    ("call", "foreign applications"): ["avm_call/specs/CallRules most_foreign_applications"],
    ("call", "global schema"): ["avm_states/specs/Schemas most_global_entries"],
    ("call", "local schema"): ["avm_states/specs/Schemas most_local_entries"],
    ("calls", "calls"): ["avm_block/specs/Blocks most_calls"],
    ("outcome", "place"): ["teal_code/specs/Limits most_program_bytes"],
    ("block", "entries"): ["avm_block/specs/Blocks most_calls"],
}
# A call of application 1 by the address of zeros, in which nothing else is said, and a creation without programs.
CALL, BARE = (f"{'00' * 129} {number} {'00' * 12}" for number in ("01", "00"))
# Bytes at the bounds, and the fault of those beyond; of calls behind the number of the call.
EDGES = (
    ("ledger", "0000000000000000", "Malformed"),
    ("value", "00", "Malformed"), ("value", "01 0000000000000000", None), ("value", "02 00", None), ("value", "03", "Malformed"),
    ("item", "00", None), ("item", "05", "Malformed"), ("item", "01 00", "Truncated"), ("items", "00000000", None),
    ("items", "00000001 00 0000000000000000", "Malformed"), ("items", "00000001 01 0000000000000001 00", None),
    ("items", "00000001 01 0000000000000001 02", "Malformed"), ("items", "00000001 02 0000000000000001 01 40 00", None),
    ("items", "00000001 02 0000000000000001 01 40 01", "Malformed"), ("items", f"00000001 04 {'00' * 40} 01 11", "Malformed"),
    ("items", f"00000001 03 {'00' * 8} 41 {'00' * 65}", "Malformed"), ("items", "00000001 03 0000000000000001 00 01 03", "Malformed"),
    ("items", "00000002 01 0000000000000001 00 01 0000000000000001 00", "Malformed"),
    ("items", "00000002 01 0000000000000001 00 02 0000000000000001 00", None),
    ("outcome", "00", None), ("outcome", "01", None), ("outcome", "02 00", "Field"), ("outcome", "02 01 0400", None),
    ("outcome", "02 18 0000", None), ("outcome", "02 19", "Field"), ("outcome", "02 01 0401", "Field"), ("outcome", "03 00", "Field"),
    ("outcome", "03 01", None), ("outcome", "03 04", None), ("outcome", "03 05", "Field"), ("outcome", "04 00", None),
    ("outcome", "04 01", None), ("outcome", "04 02 18 0400", None), ("outcome", "04 02 19", "Field"), ("outcome", "04 03", "Field"),
    ("outcome", "05", "Field"),
    ("calls", "", "Truncated"), ("calls", "000000", "Truncated"), ("calls", "00000000", None), ("calls", "00000000 00", "Rest"),
    ("calls", f"00000001 {CALL}", None), ("calls", f"00000001 {CALL[:-2]}", "1 Truncated"), ("calls", f"00000001 {CALL} 00", "Rest"),
    ("calls", f"00000002 {CALL}", "2 Truncated"), ("calls", f"00000002 {CALL} {CALL[:-2]}", "2 Truncated"),
    ("calls", f"00000002 {BARE}", "1 ProgramsMissing"), ("calls", f"00000002 {CALL} {BARE}", "2 ProgramsMissing"),
    ("calls", f"00000001 {BARE} 00", "1 ProgramsMissing"), ("calls", f"00001000 {CALL * 4096}", None),
    ("calls", f"00001001 {CALL * 4097}", "TooMany"),
)  # fmt: skip


class Fault(Exception):
    """The bytes have another encoding than the tables'."""


class Row:
    """A row of a table: a field, how it is encoded, when it is there, and its bounds."""

    def __init__(self, line):
        cells = [cell.strip() for cell in line.strip("|").split("|")]
        self.field, self.limits = cells[0].strip("`"), cells[2]
        self.encoded, _, conditions = cells[1].partition(", of ")
        self.conditions = [tuple(words.rsplit(" ", 1)) for words in conditions.split(" or of ")] if conditions else []
        self.found_bounds = list(self.read_bounds())

    def is_there(self, record):
        of = record.get("item") or record
        return not self.conditions or any(of.get(field) == int(value) for field, value in self.conditions)

    def bounds(self):
        """Least and most of what is measured, whether that is a sum, and the rule of calls that is named."""
        return self.found_bounds

    def read_bounds(self):
        told = re.sub(r"(\d),(\d)", r"\1\2", self.limits)
        for least in re.findall(r"at least (\d+)", told):
            yield int(least), None, False, None
        for least, word, most in re.findall(r"^(\d+) (to|or) (\d+)(?:;|$)", told):
            if word == "to" or int(least) + 1 == int(most):
                yield int(least), int(most), False, None
        for number in re.findall(r"^(\d+)$", told):
            yield int(number), int(number), False, None
        for together, most, rule in re.findall(r"(together )?at most (\d+)(?: bytes)?(?: \((\w+)\))?", told):
            yield 0, int(most), bool(together), rule or None


def tables(text):
    """Each layout's rows, by its heading."""
    found, heading = {}, None
    for line in text.splitlines():
        if line.startswith("#"):
            heading = line.lstrip("#").strip().lower()
        elif line.startswith("| `"):
            found.setdefault(heading, []).append(Row(line))
    return found


def examples(text):
    """Each example's bytes and its lines, by its heading."""
    found = {}
    for heading, body in re.findall(r"^## (\w+)\n(.*?)(?=^## |\Z)", text, flags=re.S | re.M):
        for fence in re.findall(r"^```\n(.*?)^```$", body, flags=re.S | re.M):
            lines = fence.splitlines()
            found[heading.lower()] = bytes.fromhex("".join(line.split("#")[0] for line in lines)), lines
    return found


def measure(value, together):
    """What a bound is of: a number, a length or a count, or the sum of lengths or of a schema's numbers."""
    if isinstance(value, int):
        return value
    if isinstance(value, dict):
        return len(value["entries"]) if "entries" in value else value["uints"] + value["byte strings"]
    return sum(map(len, value)) if together else len(value)


# ---- the rules between fields: of a record, which knows the one around it and the one before it, and of the field's value, of which
# ---- a list is judged by its count


def around(record, field):
    """A field's value in the record that has it, around this one."""
    while field not in record:
        record = record["around"]
    return record[field]


def before(record, field, first):
    """A field's value in the record before this one, or what stands for it where there is none."""
    return record["before"][field] if record["before"] else first


def room_of(state):
    """The schema of a state; of an application that is gone there is none, nor of an item's."""
    owner = state["around"]
    if "present" in owner:
        return None
    if "global schema" in owner:
        return owner["global schema"]
    return next((app["local schema"] for app in around(owner, "applications") if app["id"] == owner["id"]), None)


def has_room(state, count):
    schema = room_of(state)
    return count <= (16 if schema is None else measure(schema, True))


def has_room_for_kind(value, kind):
    if "around" not in value or "present" in value["around"]:
        return True
    state = value["around"]["around"]
    schema = room_of(state)
    room = 16 if schema is None else schema["uints" if kind == 1 else "byte strings"]
    return sum(entry["value"]["kind"] == kind for entry in state["entries"]) < room


def named(item):
    return tuple(item.get(field) for field in ("kind", "account", "application", "key"))


def version(program):
    """The first varuint; of no bytes 0."""
    ends = next((place for place, byte in enumerate(program) if byte < 128), 0)
    return sum((byte & 127) << 7 * place for place, byte in enumerate(program[: ends + 1]))


def is_program(_, program):
    return version(program) in (2, 3)


RULES = {
    ("state", "entries"): has_room,
    ("entry of a state", "key"): lambda entry, key: entry["before"] is None or before(entry, "key", b"") < key,
    ("value", "kind"): has_room_for_kind,
    ("application", "id"): lambda app, number: before(app, "id", 0) < number < around(app, "next id"),
    ("application", "approval program"): is_program,
    ("application", "clear program"): is_program,
    ("local state", "account"): lambda local, account: before(local, "account", b"") <= account,
    ("local state", "id"): lambda local, number: number < around(local, "next id")
    and (before(local, "account", b""), before(local, "id", 0)) < (local["account"], number),
    ("row", "approval program"): is_program,
    ("row", "clear program"): is_program,
    ("entry of a block", "timestamp"): lambda entry, timestamp: before(entry, "timestamp", 0) < timestamp,
    ("block", "magic"): lambda _, letters: letters == b"AVMB",
}
NAMED = {("block", "magic"): "Magic", ("block", "format"): "Format", ("entry of a block", "timestamp"): "Order"}
OF_CALLS = ("call", "calls", "outcome", "block", "entry of a block")


def broken_bounds(record, rows):
    """The rules with a bound, and whether each is broken."""
    return [(rule, measure(record[row.field], together) > most) for row in rows for _, most, together, rule in row.bounds() if rule]


def broken_rules(call, rows):
    """The rules of calls that are broken, in the order of the page."""
    bounds = broken_bounds(call, rows)
    programs = [call["approval program"], call["clear program"]]
    creates = call["application"] == 0
    brings = creates or call["completion"] == UPDATE
    schemas = sum(measure(call[name], True) for name in ("global schema", "local schema"))
    bounds += [("ProgramsMissing", brings and not all(programs)), ("ProgramsGiven", not brings and any(programs)),
               ("SchemaSize", not creates and schemas > 0), ("ClearOnCreate", creates and call["completion"] == CLEAR_STATE),
               ("Program", brings and not all(is_program(call, program) and len(program) <= 1024 for program in programs))]
    return sorted((rule for rule, broken in bounds if broken), key=ORDER.index)


class Reader:
    """Reads one thing, and tells field by field what it reads."""

    def __init__(self, layouts, data, known):
        self.layouts, self.data, self.known, self.place, self.told = layouts, data, known, 0, []

    def take(self, count):
        if len(self.data) - self.place < count:
            raise Fault("Truncated")
        self.place += count
        return self.data[self.place - count : self.place]

    def tell(self, name, encoded, shown):
        self.told.append(f"{' '.join(part.hex() for part in encoded if part)}  # {name} {shown}")

    def shown(self, value):
        if isinstance(value, int):
            return value
        if value in self.known:
            return self.known[value]
        if len(value) == 32:
            return f"32 x {value[:1].hex()}" if len(set(value)) == 1 else value.hex()
        return f'"{value.decode()}"' if value.isascii() and value.decode().isprintable() else value.hex()

    def simple(self, name, encoded):
        """A number, bytes, or a byte string."""
        length = b""
        if encoded.endswith(" + n"):
            length = self.take(int(encoded[0]))
            value = self.take(int.from_bytes(length, "big"))
        else:
            value = self.take(int(encoded.split()[0]))
        known = int.from_bytes(value, "big") if encoded in "1248" else value
        self.tell(name, (length, value), self.shown(known))
        return known

    def list_of(self, layout, row, record):
        size, _, one = row.encoded.partition(" + each ")
        self.judge(layout, row, record, count := self.simple(row.field, size))
        items = record[row.field] = []
        for number in range(1, count + 1):
            try:
                items.append(self.encoded("each", one, around=record, before=items[-1] if items else None))
            except Fault as fault:
                raise Fault(f"{number} {fault}") if layout == "calls" else fault

    def encoded(self, name, encoded, **near):
        link = re.match(r"\[(.*?)\]", encoded)
        return self.layout(link[1], **near) if link else self.simple(name, encoded)

    def judge(self, layout, row, record, value):
        """A field's bounds, but for those that are rules of calls, and the rule between it and others."""
        sizes = [(least, most, measure(value, together)) for least, most, together, rule in row.bounds() if rule is None]
        rule = RULES.get((layout, row.field))
        if any(size < least or most is not None and size > most for least, most, size in sizes) or rule and not rule(record, value):
            raise Fault(NAMED.get((layout, row.field)) or ("Field" if layout in OF_CALLS else "Malformed"))

    def layout(self, name, **near):
        begun, first = self.place, len(self.told)
        record = self.record(name, near)
        encoded = self.data[begun : self.place]
        if near and encoded in self.known:
            fields = " ".join(line.split("  #")[0] for line in self.told[first:])
            self.told[first:] = [f"{fields}  # {name} {self.known[encoded]}"]
        return record

    def record(self, name, near):
        record = dict(near)
        for row in self.layouts[name]:
            if not row.is_there(record):
                continue
            if (name, row.field) == ("block", "digest"):
                self.seal(record, row)
            elif " + each " in row.encoded:
                self.list_of(name, row, record)
            else:
                record[row.field] = self.encoded(row.field, row.encoded, around=record, before=None)
                self.judge(name, row, record, record[row.field])
        if name == "call" and near:
            self.accept(record)
        if name == "entry of items" and any(named(entry["item"]) == named(record["item"]) for entry in record["around"]["items"]):
            raise Fault("Malformed")
        return record

    def accept(self, call):
        """A call of a list keeps the rules, and one of a block the profile too."""
        broken = broken_rules(call, self.layouts["call"])
        if "calls" in call["around"]:
            if broken:
                raise Fault(broken[0])
            return
        profile = 3 if around(call, "format") == 2 else 2
        newest = max(version(call[name]) for name in ("approval program", "clear program"))
        if newest > profile or broken:
            raise Fault("Field")

    def seal(self, block, row):
        digest = hashlib.sha256(self.data[: self.place]).digest()
        self.known = {**self.known, digest: "the SHA-256 of all before"}
        block["digest"] = self.simple(row.field, row.encoded)
        if self.place < len(self.data):
            raise Fault("Rest")
        if block["digest"] != digest:
            raise Fault("Digest")


def read(layouts, name, data, known=(), **near):
    """What the bytes are, and the lines that tell it."""
    reader = Reader(layouts, data, dict(known))
    record = reader.layout(name, **near)
    if reader.place < len(data):
        raise Fault("Rest")
    for rule, broken in broken_bounds(record, layouts[name]) if name == "calls" else ():
        if broken:
            raise Fault(rule)
    return record, reader.told


def fault_of(layouts, name, data, **near):
    try:
        read(layouts, name, data, **near)
    except Fault as fault:
        return str(fault)
    return None


def files(layouts):
    """Reads each line of the examples' calls and blocks; each block stands over its ledger."""
    count, wrong = 0, []
    for path in sorted((TOP / "examples").glob("*/*.[cbf][alo]*")):
        if path.suffix not in (".calls", ".block", ".forged"):
            continue
        lines = [bytes.fromhex(line) for line in path.read_text().split()]
        names = ["ledger", "block"] if path.suffix != ".calls" else ["ledger", "header"] + ["call"] * (len(lines) - 2)
        for name, line in zip(names, lines):
            count += 1
            if fault := fault_of(layouts, name, line):
                wrong.append(f"docs/FORMATS.md: a {name} of {path.name} is {fault}")
        if names[-1] == "block" and read(layouts, "block", lines[1])[0]["base"] != hashlib.sha256(lines[0]).digest():
            wrong.append(f"docs/FORMATS.md: the base of {path.name} is not the digest of its ledger")
    return count, wrong


def rows(layouts):
    """Reads the ledgers, calls and blocks of the stored rows, whose answers were worked out outside the programs."""
    count, wrong = 0, []
    lines = (TOP / "crates/rows/stdout").read_text().splitlines()
    for line, answer in zip(lines, lines[1:]):
        row = re.fullmatch(r"(ledger|calldata|block) ([0-9a-f]+|-)", line)
        if row and answer.startswith("= "):
            count += 1
            name, data = row[1].replace("calldata", "call"), bytes.fromhex(row[2].strip("-"))
            found, word = fault_of(layouts, name, data), answer[2:].split()[0]
            if found != (word if word[0].isupper() else None):
                wrong.append(f"docs/FORMATS.md: row {line[:200]} is {found}, and not {word[:20]}")
    return count, wrong


def bounds(layouts):
    """The greatest numbers of the tables are those of the definitions, and bytes at and behind a bound are judged so."""
    wrong = []
    for (layout, field), names in DEFINED.items():
        row = next(row for row in layouts[layout] if row.field == field)
        defined = []
        for file, name in (each.split() for each in names):
            text = (TOP / "crates" / f"{file}.antt").read_text()
            defined.append(int(re.search(rf"^{name} = (\d+)$", text, flags=re.M)[1]))
        shown = [most for _, most, _, _ in row.bounds()]
        if shown != defined:
            wrong.append(f"docs/FORMATS.md has bounds {shown} of {layout}, {field}; the definitions have {defined}")
    for name, encoded, fault in EDGES:
        found = fault_of(layouts, name, bytes.fromhex(encoded))
        if found != fault:
            wrong.append(f"docs/FORMATS.md: the {name} {encoded} is {found}, and not {fault}")
    return wrong


def compare():
    """How many examples, fields and lines there are, and what is wrong with them."""
    text = PAGE.read_text()
    layouts, shown, wrong, fields = tables(text), examples(text), [], 0
    order = [name for name in layouts if not name.startswith("entry") and name not in ("application", "local state", "row", "counts", "key value", "locals")]
    if order != list(shown):
        wrong.append(f"docs/FORMATS.md has tables of {order} and examples of {list(shown)}")
        return "none", wrong
    digest = hashlib.sha256(shown["ledger"][0]).digest()
    known = {digest: "the digest of the ledger above", **{shown[name][0]: "as above" for name in ("header", "call")}}
    owner = {"global schema": read(layouts, "schema", shown["schema"][0])[0]}
    for name, (data, lines) in shown.items():
        near = {"around": owner} if name == "state" else {}
        try:
            record, told = read(layouts, name, data, known, **near)
        except Fault as fault:
            wrong.append(f"docs/FORMATS.md: the example of {name} is {fault}")
            continue
        fields += len(told)
        wrong += [f"docs/FORMATS.md, example of {name}: {line} is not {other}" for line, other in zip(lines, told) if line != other]
        parts = [fault_of(layouts, name, data[:end], **near) for end in range(len(data))]
        if {part and part.split()[-1] for part in parts} != {"Truncated"} or fault_of(layouts, name, data + b"\0", **near) != "Rest":
            wrong.append(f"docs/FORMATS.md: beginnings of the example of {name} are {set(parts)}")
    if wrong:
        return "none", wrong
    block = read(layouts, "block", shown["block"][0])[0]
    if {block["base"], block["after"]} != {digest}:
        wrong.append("docs/FORMATS.md: the block is not over the ledger")
    (lines, of_lines), (stored, of_rows) = files(layouts), rows(layouts)
    return f"{len(shown)} examples of {fields} lines, {lines} lines of examples/, {stored} rows", wrong + bounds(layouts) + of_lines + of_rows
