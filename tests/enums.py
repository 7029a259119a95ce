"""The numbers of statuses, endings, faults, reasons and rules, wherever they stand for callers: in include/avm.h, in python/avm.py and
in examples/encode.py, compared with the code."""

import ast
import re
import sys
from pathlib import Path

TOP = Path(__file__).resolve().parent.parent
sys.path.insert(0, str(TOP / "python"))
import avm  # noqa: E402

# An enum of the header, the prefix of its names, its class in python/avm.py, and the enum of the code with its file.
ENUMS = (
    ("avm_status", "AVM_", avm.Status, "Status", "avm_bytes/src/statuses.rt"),
    ("avm_fault", "AVM_FAULT_", avm.Fault, "Fault", "teal_value/src/fault.rt"),
    ("avm_call_fault", "AVM_CALL_", avm.CallFault, "CallFault", "avm_call/src/call_fault.rt"),
    ("avm_why", "AVM_WHY_", avm.Why, "Why", "avm_call/src/outcome.rt"),
    ("avm_rule", "AVM_RULE_", avm.Rule, "CheckFault", "teal_check/src/fault.rt"),
    ("avm_code_fault", "AVM_CODE_", avm.CodeFault, "CodeFault", "teal_code/src/decode.rt"),
    ("avm_asm_fault", "AVM_ASM_", avm.AsmFault, "AsmFaultKind", "teal_source/src/fault.rt"),
    ("avm_ledger_fault", "AVM_LEDGER_", avm.LedgerFault, "LedgerFault", "avm_ledger/src/ledger_fault.rt"),
    ("avm_block_fault", "AVM_BLOCK_", avm.BlockFault, "BlockFault", "avm_block/src/block_fault.rt"),
)
# Behind which number the faults of lists of calls stand.
OF_LISTS = 32


def screaming(name):
    """DIV_ZERO for DivZero."""
    return re.sub(r"(?<=[a-z])(?=[A-Z])", "_", name).upper()


def in_code(file, enum):
    """Each variant's number, as `number` gives it, or else the discriminant. Both are the same where both stand there, and the names
    that `name` gives are those of the variants; else what is found is no numbers."""
    text = (TOP / "crates" / file).read_text()
    body = re.search(rf"^pub enum {enum} \{{\n(.*?)^\}}", text, flags=re.S | re.M)[1]
    variants = re.findall(r"^    (\w+)(?: \{.*\})?(?: = (\d+))?,", body, flags=re.M)
    first = variants[0][1]
    numbers = {name: number for number, (name, _) in enumerate(variants, int(first or 0))}
    numbered = {name: int(number) for name, number in re.findall(rf"\b{enum}::(\w+)(?: \{{ \.\. \}})? => (\d+),", text)}
    named = re.findall(rf'\b{enum}::(\w+)(?: \{{ \.\. \}})? => "(\w+)"', text)
    wrong = any(number for _, number in variants[1:]) or any(name != word for name, word in named)
    wrong = wrong or (set(numbered) != set(numbers) if numbered else not first) or (numbered and first and numbered != numbers)
    return {} if wrong else numbered or numbers


def of_calls(file, enum):
    """The faults of a call's bytes by their numbers in avm_c, the broken rules, which stand behind them, and behind those the faults of
    all calls of a block."""
    told = (TOP / "crates/avm_bytes/src/attempts.rt").read_text()
    numbers = {name: int(number) for name, number in re.findall(r"\bCallDataFault::(\w+)\) => (\d+),", told)}
    behind = int(re.search(r"=> (\d+) \+ u32::from\(fault\.number\(\)\)", told)[1])
    return {**numbers, **numbered_from(behind, file, enum), **numbered_from(OF_LISTS, "avm_block/src/block_calls.rt", "CallsFault")}


def numbered_from(behind, file, enum):
    """Each variant's number, as `number` gives it, behind another."""
    variants = re.findall(rf"\b{enum}::(\w+)(?:\(_fault\)| \{{ \.\. \}})? => (\d+),", (TOP / "crates" / file).read_text())
    return {name: behind + int(number) for name, number in variants}


def in_header(enum, prefix):
    """Each name's number, without the prefix; a comment has to stand beside it."""
    body = (TOP / "include/avm.h").read_text().split(f"enum {enum} {{\n")[1].split("};")[0]
    return {name: int(number) for name, number in re.findall(rf"^    {prefix}(\w+) = (\d+),? */\* .* \*/$", body, flags=re.M)}


def compare():
    """How many names there are, and what is wrong with their numbers."""
    count, wrong = 0, []
    for enum, prefix, python, code, file in ENUMS:
        numbers = of_calls(file, code) if code == "CallFault" else in_code(file, code)
        count += len(python)
        if not numbers:
            wrong.append(f"{file} is not understood: {code}")
        screamed = {screaming(name): number for name, number in numbers.items()}
        if in_header(enum, prefix) != screamed:
            wrong.append(f"include/avm.h has other numbers in enum {enum} than {file}")
        if {member.name: member.value for member in python} != (screamed if python is avm.Status else numbers):
            wrong.append(f"python/avm.py has other numbers in {python.__name__} than {file}")
    if in_header("avm_ending", "AVM_") != {member.name: member.value for member in avm.Ending}:
        wrong.append("python/avm.py has other endings than include/avm.h")
    for name, python in (("FAULTS", avm.Fault), ("REFUSALS", avm.Why)):
        if encoded(name) != [member.name for member in python]:
            wrong.append(f"examples/encode.py has other {name} than the code")
    return count + len(avm.Ending), wrong


def encoded(name):
    """A list of examples/encode.py, which numbers names from 1."""
    for node in ast.parse((TOP / "examples/encode.py").read_text()).body:
        if isinstance(node, ast.Assign) and node.targets[0].id == name:
            return ast.literal_eval(node.value)
    return None
