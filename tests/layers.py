"""The layers that docs/ARCHITECTURE.md tells, by crates.txt. `tests/docs` asks for them."""

import re
from pathlib import Path
from typing import Dict, List, Set, Tuple

TOP = Path(__file__).resolve().parent.parent
HANDLERS = ("avm_arith", "avm_flow_ops", "avm_state_ops")
# Who does not stand on whom, also by others.
APART = (
    # What reads lines and documents stands on nothing that executes calls.
    (("avm_input", "json_documents"), ("avm_run",)),
    # What replays a block, or steps through its calls, knows no versions of items.
    (("avm_replay", "avm_stepper", "avm_commands", "json_commands", "avm_bytes"), ("mv_history",)),
    # No command reaches a store that is kept in memory.
    (("avm", "avm_json", "avm_c"), ("mv_core", "avm_debug")),
)


def named() -> Dict[str, List[str]]:
    """Of each crate the crates of this repository that its line names, in the order of the lines."""
    lines = [line.split("#")[0].partition(":") for line in (TOP / "crates.txt").read_text().splitlines()]
    found = {crate.split()[0]: names.split() for crate, colon, names in lines if colon}
    return {crate: [name for name in names if name in found] for crate, names in found.items()}


def words(crate: str) -> Set[str]:
    """The words of a crate's code, definitions and proofs."""
    folders = [TOP / "crates" / crate / part for part in ("src", "specs", "proofs")]
    files = [file for folder in folders for file in folder.rglob("*.*t*") if file.suffix in (".rt", ".antt")]
    return {word for file in files for word in re.findall(r"\w+", file.read_text())}


def compare() -> Tuple[int, List[str]]:
    """How many names of crates there are, and what is wrong: a name of a crate that stands on a later line, or that is not used; and
    a crate that stands on what it is to know nothing of."""
    deps, reached, wrong = named(), {}, []
    for crate, names in deps.items():
        late = [name for name in names if name not in reached]
        reached[crate] = set(names).union(*(reached.get(name, set()) for name in names))
        used = words(crate)
        wrong += [f"crates.txt: {crate} names {name}, which stands on a later line" for name in late]
        wrong += [f"crates.txt: {crate} names {name}, which it does not use" for name in names if name not in used]
        if "avm_objects" not in {crate, *reached[crate]}:
            wrong += [f"crates.txt: {crate} stands on the handlers of {name}" for name in HANDLERS if name in reached[crate]]
    for crates, others in APART:
        wrong += [f"crates.txt: {crate} stands on {other}" for crate in crates for other in others if other in reached[crate]]
    return sum(len(names) for names in deps.values()), wrong
