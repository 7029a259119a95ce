"""The rows of crates/rows, and the cases of tests/json_cases, whose answers were worked out outside the
programs, and how the tests of this folder run programs."""

import os
import re
import subprocess
import sys

TOP = os.path.dirname(os.path.dirname(os.path.abspath(__file__)))
ENDED = re.compile("(.*)= ([0-9]+|none)")
ANSWERED = ("$", "ledger", "bytes", "call", "call3", "calldata", "block")
SCENARIOS = ("values", "skew", "parts", "prunes", "marks")


def read(path):
    with open(os.path.join(TOP, "crates", path), encoding="utf-8") as file:
        return file.read()


def built(name):
    """The proved program NAME: the one that the environment names, or else the one that `rt run` proves and builds."""
    path = os.environ.get(name.upper())
    if path:
        return os.path.abspath(path)
    crate = os.path.join(TOP, "crates", name)
    path = os.path.join(crate, "out", name)
    run = subprocess.run(["rt", "run"], cwd=crate, input=b"", stdout=subprocess.PIPE, stderr=subprocess.STDOUT)
    if not os.path.exists(path):
        sys.exit(f"{name} is not built:\n{run.stdout.decode(errors='replace')}")
    return path


def rows(file):
    """The rows of crates/rows in its stdin, or with their answers in its stdout, but for those of stores; and those."""
    others, stores = read(f"rows/{file}").split("\nstores\n")
    return others + "\n", stores


def commands():
    """The rows of commands without a failing stream, whose whole input is stored: the words, the input, the answer, the status."""
    found, given, plain = [], b"", True
    answers = iter(rows("stdout")[0].split("\n"))
    for line in rows("stdin")[0].split("\n"):
        head, _, rest = line.partition(" ")
        if head == "|":
            given += rest.encode() + b"\n"
        elif head == "x":
            given += bytes.fromhex(rest)
        elif head == "*":
            number, _, text = rest.partition(" ")
            plain = plain and int(number) * len(text) < 100_000
            given += text.encode() * int(number) if plain else b""
        elif head in ("fail", "interrupt", "room", "+"):
            plain = False
        elif head == "program":
            given = b""
        elif head == "$":
            while next(answers) != line:
                pass
            text, ended = "", None
            while not ended:
                answer = next(answers)
                ended = ENDED.fullmatch(answer)
                text += ended[1] if ended else answer + "\n"
            if plain and ended[2] != "none":
                found.append((rest.split(), given, text.encode(), int(ended[2])))
            given, plain = b"", True
    return found


def rows_below(heading):
    """The rows below a heading that answer in a line of their own, and what they print, but for those whose bytes are cut short."""
    found, printed, inside = [], [], False
    answers = iter(rows("stdout")[0].split("\n"))
    for line in rows("stdin")[0].split("\n"):
        if line.startswith("# "):
            inside = line[2:] == heading
        if line.split(" ")[0] in ANSWERED:
            while next(answers) != line:
                pass
            answer = next(answers) if inside else "= Truncated"
            if answer != "= Truncated":
                found.append(line)
                printed += [line, answer]
    if not found:
        sys.exit(f"crates/rows/stdin has no rows below: {heading}")
    return found, printed


def sections(text):
    """The lines of a text by their headings, each of which is the first of its lines."""
    found = {}
    for line in text.splitlines():
        if line.startswith("# "):
            lines = found.setdefault(line[2:], [])
        lines.append(line)
    return found


def store_rows():
    """The scenarios of rows of stores to which memory is refused: the name, the rows and the lines that they print. The row that
    begins them, and the programs of the first heading, come before each."""
    asked, printed = sections(rows("stdin")[1]), sections(rows("stdout")[1])
    found = []
    for heading in asked:
        name = heading.split(":")[0]
        if name in SCENARIOS:
            text = "\n".join(["stores"] + asked["programs"] + asked[heading]) + "\n"
            lines = [line.encode() for line in ["stores"] + printed["programs"] + printed[heading]]
            found.append((name, text.encode(), lines))
    if len(found) != len(SCENARIOS):
        sys.exit(f"crates/rows/stdin has not each of the headings {', '.join(SCENARIOS)}")
    return found


def repeated(line):
    """The text of a line of a case: {*N TEXT*} in it is the text N times."""
    return re.sub(r"\{\*(\d+) (.*?)\*\}", lambda repeat: int(repeat[1]) * repeat[2], line)


def json_cases():
    """The cases of tests/json_cases, whose form tests/json says: the name, the words, the input, what is printed, and the status."""
    printed, folder = {}, os.path.join(TOP, "tests", "json_cases")
    for path in sorted(os.listdir(folder), reverse=True):
        with open(os.path.join(folder, path), encoding="utf-8") as file:
            cases = re.split(r"^# ", file.read(), flags=re.M)[1:]
        for case in cases:
            name, given, answer = re.split(": |\n", case)[0], b"", ""
            for line in case.split("\n")[1:]:
                mark, _, rest = line.partition(" ")
                if mark == "$":
                    words = rest.split()
                elif mark == "<x":
                    given = bytes.fromhex(rest)
                elif mark == "<=":
                    given = printed[rest]
                elif mark in ("<", "<."):
                    given += (repeated(rest) + ("\n" if mark == "<" else "")).encode()
                elif mark == ">":
                    answer += repeated(rest) + "\n"
                elif mark == "=":
                    status = int(rest)
                elif line:
                    sys.exit(f"{path}, {name}: {line}")
            printed[name] = answer.encode()
            yield name, words, given, answer.encode(), status


def digits(*parts):
    """Lines of digits."""
    return b"".join(part.hex().encode() + b"\n" for part in parts)
