"""What is read from a page of `avm_json page`, by expressions for the browser, and what has to stand there, put together from what other
commands say of the same block: the tables of the ledger, rows of entries, listings with their marks, and each step's stack and scratch
space."""

import base64
import re

COMPLETIONS = ("NoOp", "OptIn", "CloseOut", "ClearState", "UpdateApplication", "DeleteApplication")
UINT_0 = {"bytes": "", "type": 2, "uint": 0}

# ---- what is read from a page

READ = """(() => {
  const text = one => one.textContent, at = id => document.getElementById(id);
  const all = (where, get) => [...document.querySelectorAll(where)].map(get), items = cell => [...cell.querySelectorAll('li')].map(text);
  const cells = row => [...row.cells].map(cell => cell.querySelector('li') ? items(cell) : text(cell));
  return { title: document.title, isShown: !at('main').hidden, isDamaged: !at('damaged').hidden,
    verdict: text(at('verdict')), meaning: text(at('meaning')), next: text(at('next')), columns: all('#calls thead th', text),
    facts: Object.fromEntries(all('#facts dt', one => [text(one), text(one.nextSibling)])),
    ledger: Object.fromEntries(all('#ledger table', one => [text(one.caption), [...one.tBodies[0].rows].map(cells)])),
    entries: all('#calls tbody tr', cells), summaries: all('#traces > details > summary', text),
    wrong: all('#calls .outcome .tag', one => one.closest('tr').rowIndex),
    elements: [...new Set(all('*', one => one.tagName))], scripts: document.scripts.length,
    unnamed: all('button', text).filter(one => !one.trim()).length + all('th:not([scope]), table:not(:has(caption))', text).length,
    headings: all('h1, h2, h3', one => one.tagName + text(one)).length }; })()"""
STEPPER = """(number => {
  const box = document.querySelector(`#entry-${number} .stepper`), text = one => one.textContent;
  const all = (where, get) => [...box.querySelectorAll(where)].map(get);
  const rows = table => [text(table.caption), [...table.tBodies[0].rows].map(row => [...row.cells].map(text))];
  return { place: text(box.querySelector('.told')), lines: all('[aria-current]', one => [...one.parentNode.children].indexOf(one)),
    tables: Object.fromEntries(all('.state table', rows)), said: all('.state p', text),
    ends: all('button', one => one.getAttribute('aria-disabled') === 'true'),
    live: box.querySelector('.told').getAttribute('aria-live'), hasFocus: box.contains(document.activeElement),
    cost: text(box.querySelector('.cost')) }; })"""
LISTING = """(number => { const text = one => one.textContent;
  return [...document.querySelectorAll(`#entry-${number} .listing li`)].map(line =>
    [text(line.children[0]), text(line.querySelector('code')), [...line.querySelectorAll('.tag')].map(text)]); })"""
FIELDS = "(number => [...document.querySelectorAll(`#entry-${number} > dl > *`)].map(one => one.textContent))"
# The least contrast of a text with what is painted behind it.
CONTRAST = """(() => {
  const linear = one => one <= 0.03928 ? one / 12.92 : ((one + 0.055) / 1.055) ** 2.4;
  const light = color => { const [r, g, b] = color.match(/[\\d.]+/g).slice(0, 3).map(one => linear(one / 255));
    return 0.2126 * r + 0.7152 * g + 0.0722 * b; };
  const behind = one => { while (one && /, 0\\)$/.test(getComputedStyle(one).backgroundColor)) one = one.parentElement;
    return getComputedStyle(one || document.body).backgroundColor; };
  const shown = [...document.querySelectorAll('body *')].filter(one => one.getClientRects().length && [...one.childNodes].some(
    child => child.nodeType === 3 && child.data.trim()));
  return Math.min(...shown.map(one => { const [a, b] = [getComputedStyle(one).color, behind(one)].map(light).sort((x, y) => y - x);
    return (a + 0.05) / (b + 0.05); })); })()"""

# ---- what has to stand there


def shown_bytes(text):
    raw = base64.b64decode(text)
    if all(32 <= one < 127 for one in raw):
        return '"' + re.sub(rb'(["\\])', rb"\\\1", raw).decode() + '"'
    return f"0x{raw.hex()} ({int.from_bytes(raw, 'big')})" if len(raw) == 8 else f"0x{raw.hex()}"


def shown_line(line):
    """A value that `debug` shows: `uint N`, `bytes` or `bytes DIGITS`."""
    kind, _, rest = line.partition(" ")
    return rest if kind == "uint" else shown_bytes(base64.b64encode(bytes.fromhex(rest)).decode())


def size_of(code):
    return f"{len(base64.b64decode(code))} bytes"


def shown_value(value):
    return shown_bytes(value["bytes"]) if value["type"] == 1 else str(value["uint"])


def keys_of(state):
    return {shown_bytes(one["key"]): (shown_value(one["value"]),) * 2 for one in state}


def schema_of(schema):
    return (f"uints: {schema['num-uint']}, byte strings: {schema['num-byte-slice']}",) * 2


def parts_of(ledger):
    """The tables of a ledger: for each row what is shown, and what is compared."""
    found = {}
    for app in ledger["apps"]:
        params = app["params"]
        codes = {name: params[f"{name.replace(' ', '-')}-program"] for name in ("approval", "clear state")}
        programs = {f"{name} program": (size_of(code), code) for name, code in codes.items()}
        schemas = {f"{name} schema": schema_of(params[f"{name}-state-schema"]) for name in ("global", "local")}
        found[f"Application {app['id']}"] = {"creator": (params["creator"],) * 2, **programs, **schemas, **keys_of(params["global-state"])}
    for account in ledger["accounts"]:
        for local in account["apps-local-state"]:
            name = f"Local state in application {local['id']} of {account['address']}"
            found[name] = {"opted in": ("yes",) * 2, **keys_of(local["key-value"])}
    return found


def change_of(old, now):
    if old is None or now is None:
        return "added" if old is None else "removed"
    return "" if old[1] == now[1] else "changed"


def ledger_tables(before, after):
    """The rows of each table: name, before, after, change."""
    old, now = parts_of(before), parts_of(after)
    tables = {}
    for part in {**old, **now}:
        one, other = old.get(part, {}), now.get(part, {})
        cells = {name: (one.get(name), other.get(name)) for name in {**one, **other}}
        tables[part] = [[name, *("none" if cell is None else cell[0] for cell in pair), change_of(*pair)] for name, pair in cells.items()]
    return tables


def outcome_of(found, said):
    return found if found == said else f"{found} the block says: {said}"


def entry_row(number, entry, outcome, has_notes, has_steps):
    txn = entry["txn"]
    note = [shown_bytes(txn["note"]) if "note" in txn else ""] if has_notes else []
    return [str(number), str(entry["timestamp"]), txn["snd"], str(txn.get("apid", "0 (creates one)")), COMPLETIONS[txn.get("apan", 0)],
            [shown_bytes(one) for one in txn.get("apaa", [])] or "", *note, outcome_of(outcome, entry["outcome"]),
            f"Step through entry {number}" if has_steps else ""]  # fmt: skip


def fields_of(txn):
    """The fields of a call that stand beside its program: each term before what it is."""
    def counts(one):
        return f"uints: {one.get('nui', 0)}, byte strings: {one.get('nbs', 0)}"
    told = {
        "apat": ("Accounts", lambda them: them), "apfa": ("Foreign applications", lambda them: map(str, them)),
        "apap": ("Approval program", size_of), "apsu": ("Clear state program", size_of), "apgs": ("Global schema", counts),
        "apls": ("Local schema", counts), "lx": ("Lease", shown_bytes), "rekey": ("Rekey to", str),
    }  # fmt: skip
    there = {name: (told[name][0], told[name][1](txn[name])) for name in told if name in txn}
    there["fee"] = "Fee", f"{txn.get('fee', 0)} microalgos"
    there["fv"] = "Valid rounds", f"{txn.get('fv', 0)} to {txn.get('lv', 0)}"
    order = ("apat", "apfa", "apap", "apsu", "apgs", "apls", "fee", "fv", "lx", "rekey")
    pairs = [there[name] for name in order if name in there]
    return [one for term, value in pairs for one in (term, *([value] if isinstance(value, str) else value))]


def listing_of(trace):
    """Each line with the number of its step and its marks."""
    states, lines = trace["app-call-trace"], trace["disassembly"]
    steps = {state["line"]: str(number) for number, state in enumerate(states[:-1], 1)}
    marks = {line: [] for line in range(len(lines))}
    if "error" in states[-1]:
        marks[states[-1]["line"]].append(f"fault: {states[-1]['error']}")
    if trace["outcome"] != trace["recorded-outcome"]:
        marks[states[-2:][0]["line"]].append(f"ends here: {trace['outcome']}; the block says: {trace['recorded-outcome']}")
    return [[steps.get(at, ""), line if at < len(lines) - 1 else "(end)", marks[at]] for at, line in enumerate(lines)]


def place_of(trace, step):
    state, last = trace["app-call-trace"][step], len(trace["app-call-trace"]) - 1
    line = trace["disassembly"][state["line"]]
    if "error" in state:
        told = f"Fault {state['error']} at {state['pc']}: {line}"
    else:
        told = f"The program ends: {trace['outcome']}" if step == last else f"Next at {state['pc']}: {line}"
    return f"Step {step} of {last}. {told}"


def changes_of(trace):
    """The rows of what a program has changed."""
    def row(where, one):
        value = one["value"]
        told = {1: lambda: shown_bytes(value["bytes"]), 2: lambda: str(value["uint"]), 3: lambda: "deleted"}[value["action"]]()
        return [where, shown_bytes(one["key"]), told]
    of_global = [row("global", one) for one in trace["global-delta"]]
    return of_global + [row(f"local, {local['address']}", one) for local in trace["local-deltas"] for one in local["delta"]]


def state_of(trace, step):
    """What stands beside the listing: the tables and the sentences."""
    state, last = trace["app-call-trace"][step], len(trace["app-call-trace"]) - 1
    stack = [[str(place), shown_value(value)] for place, value in enumerate(state["stack"])][::-1]
    scratch = [[str(place), shown_value(value)] for place, value in enumerate(state["scratch"]) if value != UINT_0]
    held = {"Stack, top first": stack, "Scratch space, places that are not the uint 0": scratch}
    said = [f"{name}: empty" for name, rows in held.items() if not rows]
    if step == last:
        held["What the program has changed"] = changes_of(trace)
        if not held["What the program has changed"]:
            said.append("The program has changed no state.")
        elif trace["outcome"] != "approved":
            said.append("The ledger keeps none of these changes, since the call is not approved.")
    return {"place": place_of(trace, step), "lines": [state["line"]], "tables": {name: rows for name, rows in held.items() if rows},
            "said": said, "live": "polite", "ends": [step == 0, step == 0, step == last, step == last]}  # fmt: skip
