"""The page that `avm_json page` has to write, put together from what the other commands say of the same ledger and block."""

import base64
import json
import re

import stored

LAST_TIMESTAMP = str(2**64 - 1)


def fixed_texts():
    """What stands on each page before its document, and behind it."""
    return re.findall('r##"(.*?)"##;', stored.read("json_commands/src/texts.rt"), re.DOTALL)


def page(run, avm, avm_json, given, number, trace, outcomes):
    """The page with a trace, or with `null`, by what other commands print. The number is that of the trace's entry, or 0."""
    after = run([avm, "state", "--at", LAST_TIMESTAMP], given)
    document = {
        "after": json.loads(run([avm_json, "show"], after.encode())),
        "entry": number,
        "outcomes": outcomes,
        "replay": run([avm, "replay"], given).rstrip("\n"),
        "shown": json.loads(run([avm_json, "show"], given)),
        "trace": json.loads(trace),
    }
    text = json.dumps(document, indent=2, sort_keys=True) + "\n"
    beginning, end = fixed_texts()
    return beginning + base64.b64encode(text.encode()).decode() + end
