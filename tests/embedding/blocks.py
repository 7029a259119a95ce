"""The ledgers and blocks that are stored in this repository, for the tests that make each block again."""

import runpy
import subprocess
import sys
from pathlib import Path

TOP = Path(__file__).resolve().parent.parent.parent
sys.path[:0] = [str(TOP / "tests"), str(TOP / "tests/embedding")]
import attempts  # noqa: E402
import formats  # noqa: E402

TRACES = runpy.run_path(str(TOP / "tests/json_traces"), run_name="json_traces")


def stored_pairs():
    """Each stored ledger with a block, once; either may be none."""
    pairs = dict.fromkeys(filter(None, map(TRACES["pair"], TRACES["stored_inputs"]())))
    readable = [one for one in pairs if set("".join(one)) <= set("0123456789abcdef") and all(len(line) % 2 == 0 for line in one)]
    for ledger, block in dict.fromkeys([*readable, *TRACES["lone_blocks"](readable)]):
        yield bytes.fromhex(ledger), bytes.fromhex(block)


def parts_of(block):
    """The bytes of a block's header and of its calls, by docs/FORMATS.md; None where it is no block."""
    try:
        record, _ = formats.read(attempts.LAYOUTS, "block", block)
    except formats.Fault:
        return None
    return attempts.encode("header", record["header"]), [attempts.encode("call", entry["call"]) for entry in record["entries"]]


def run(words, given):
    """What a program prints for an input."""
    done = subprocess.run(words, input=given, capture_output=True, env={})
    assert not done.stderr and done.returncode <= 1, f"{words}: {done.returncode} {done.stderr[-200:]}"
    return done.stdout.decode()


def printed(words, *lines):
    """What a program prints for lines of digits."""
    return run(words, b"".join(line.hex().encode() + b"\n" for line in lines))
