#!/usr/bin/env python3
"""A vote between tea and coffee, from the sources of examples/vote to a block that anyone checks.

    PYTHONPATH=python AVM_LIBRARY=./libavm_c.so python3 examples/embed/vote.py

It prints the state of the application after the calls, and the verdict on the block.
"""

from pathlib import Path

from avm import Avm, Call, Completion, Header, Ledger

avm = Avm()
folder = Path(__file__).parent.parent / "vote"
approval, clear = (avm.assemble((folder / name).read_text()) for name in ("vote.teal", "vote_clear.teal"))
ann, bob, cat = (bytes([byte] * 32) for byte in (0xAA, 0xBB, 0xCC))
# A schema has its uints before its byte strings. The first application gets the id 1.
schemas = {"global_schema": (3, 0), "local_schema": (0, 1)}
calls = [
    Call.of(ann, arguments=[(600).to_bytes(8, "big"), b"tea", b"coffee"], approval_program=approval, clear_program=clear, **schemas),
    *(Call.of(voter, 1, Completion.OptIn) for voter in (bob, cat)),
    Call.of(bob, 1, arguments=[b"tea"]),
    Call.of(bob, 1, arguments=[b"coffee"]),  # rejected: bob has voted
    Call.of(cat, 1, arguments=[b"coffee"]),
    Call.of(bob, 1, Completion.ClearState),  # bob leaves, and his vote with him
]
before = Ledger.empty()
block = avm.propose(before, Header.of(round=500), calls)
for key, value in avm.apply(before, block).global_state(1).items():
    print(key.decode(), value)
print(avm.replay(before, block))
