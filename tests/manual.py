"""The commands, options and exit statuses of the two programs, wherever they are told: in the manual pages, in the completions for bash, in
README's and JSON.md's tables, and in the usage lines, compared with the code that reads the words."""

import re
import shlex
import subprocess
from pathlib import Path
from typing import Dict, List, Tuple

TOP = Path(__file__).resolve().parent.parent
# A program, the file that reads its words, and the file with its usage line.
PROGRAMS = (
    ("avm", "avm_input/src/command_line.rt", "avm_commands/src/commands.rt"),
    ("avm_json", "avm_input/src/json_command_line.rt", "json_commands/src/commands.rt"),
)
# A command's options, and whether they have to be given.
Options = Tuple[List[str], bool]


def code(path: str) -> str:
    return (TOP / "crates" / path).read_text()


def commands(file: str) -> Dict[str, Options]:
    """The commands that the code reads."""
    table = re.search(r"COMMANDS: [^=]* = \[(.*?)\n\];", code(file), flags=re.S)[1]
    required = re.search(r'program_line\(alloc, "\w+", &COMMANDS, (true|false)\)', code(file))[1] == "true"
    return {name: (re.findall(r"\w+", options), required) for name, options in re.findall(r'\("(\w+)", &\[([^]]*)\]\)', table)}


def usage(file: str) -> str:
    return re.search(r'USAGE_TEXT: &str = "usage: (.*)\\n";', code(file))[1]


def plain(line: str) -> str:
    """A line of a manual page without its macro and escapes; the words behind a macro of two fonts are joined."""
    macro, _, rest = line.partition(" ")
    if line.startswith("."):
        line = "".join(shlex.split(rest.replace("\\", "\\\\"))) if len(macro) == 3 else rest
    return line.replace("\\-", "-").replace("\\ ", " ")


def section(page: str, name: str) -> List[str]:
    return re.search(rf"^\.SH {name}\n(.*?)(?=^\.SH|\Z)", page, flags=re.S | re.M)[1].splitlines()


def entries(lines: List[str], between: str) -> List[str]:
    """What stands between lines of a macro, each on one line."""
    parts = "\n".join(lines).split(f"{between}\n")
    return [" ".join(" ".join(map(plain, part.splitlines())).split()) for part in parts if part.strip()]


def paragraphs(lines: List[str]) -> Dict[str, str]:
    """The paragraphs with a tag, by their tags."""
    parts = [part.splitlines() for part in "\n".join(lines).split(".TP\n") if part.strip()]
    return {plain(first): " ".join(" ".join(map(plain, rest)).split()).replace(" .", ".").replace(" ,", ",") for first, *rest in parts}


def table(page: str, head: str) -> List[List[str]]:
    """The rows of a page's table with this head, without marks of code."""
    lines = (TOP / page).read_text().split(f"{head}\n", 1)[1].splitlines()[1:]
    end = next((at for at, line in enumerate(lines) if not line.startswith("|")), len(lines))
    return [[cell.strip().replace("`", "") for cell in line.strip("|").split("|")] for line in lines[:end]]


def bare(words: str) -> str:
    """A command with its options, without the values."""
    return " ".join(word for word in re.sub(r"[][]", "", words).split() if not re.fullmatch("[A-Z]", word))


def forms(program: str, read: Dict[str, Options], one_line: bool) -> List[str]:
    """Each command with its options, without values: on one line where an option may be left out, or on one with it and one without."""
    found = []
    for name, (options, required) in read.items():
        words = " ".join([program, name, *(f"--{option}" for option in options)])
        found += [words] if required or not options or one_line else [f"{program} {name}", words]
    return found


def completed(program: str, words: List[str]) -> List[str]:
    """What bash offers behind some words."""
    line = " ".join(f"'{word}'" for word in [program, *words, ""])
    script = f"source man/{program}.bash; COMP_WORDS=({line}) COMP_CWORD={len(words) + 1}; _{program}; echo ${{COMPREPLY[*]}}"
    return subprocess.run(["bash", "-c", script], cwd=TOP, capture_output=True, text=True, check=True).stdout.split()


def of_program(program: str, words: str, usage_line: str) -> List[Tuple[str, object, object]]:
    """What is told of a program's words: where, what, and what the code has."""
    read, page = commands(words), (TOP / f"man/{program}.1").read_text()
    told = usage(usage_line)
    # The usage line of avm has names alone.
    known = read if "--" in told else {name: ([], True) for name in read}
    shown = [bare(f"{program} {each}") for each in told.partition(" ")[2].split("|")]
    found = [
        (f"the usage line of {program}", sorted(shown), sorted(forms(program, known, True))),
        (f"man/{program}.1, SYNOPSIS", sorted(map(bare, entries(section(page, "SYNOPSIS"), ".br"))), sorted(forms(program, read, True))),
        (
            f"man/{program}.1, COMMANDS",
            sorted(f"{program} {bare(tag)}" for tag in paragraphs(section(page, "COMMANDS"))),
            sorted(forms(program, read, False)),
        ),
        (f"man/{program}.bash", sorted(completed(program, [])), sorted(read)),
    ]
    for name, (options, _) in read.items():
        found.append((f"man/{program}.bash, {name}", completed(program, [name]), [f"--{option}" for option in options]))
    return found


def of_tables() -> List[Tuple[str, object, object]]:
    """README's table of commands beside the code and the manual page, and JSON.md's beside the code."""
    rows = table("README.md", "| Command | Input | Output |")
    page = paragraphs(section((TOP / "man/avm.1").read_text(), "COMMANDS"))
    limit = f"{int(re.search(r'INPUT_LIMIT: usize = ([0-9_]+);', code('avm_input/src/input.rt'))[1]):,}"
    json_rows = table("docs/JSON.md", f"| Command | Standard input, at most {limit} bytes | Standard output |")
    json_shown = [bare(each) for row in json_rows for each in row[0].split(",")]
    found = [
        ("README's commands", sorted(bare(row[0]) for row in rows), sorted(forms("avm", commands(PROGRAMS[0][1]), True))),
        ("the commands of docs/JSON.md", sorted(json_shown), sorted(forms("avm_json", commands(PROGRAMS[1][1]), False))),
        ("man/avm.1, COMMANDS", page, {row[0].split(" ", 1)[1]: f"Reads {row[1]}. Writes {row[2]}.".replace("`", "") for row in rows}),
    ]
    for name in ("README.md", "man/avm.1", "man/avm_json.1"):
        found.append((f"the limit of an input in {name}", f"at most {limit} bytes" in (TOP / name).read_text(), True))
    return found


def of_statuses() -> List[Tuple[str, object, object]]:
    """The exit statuses of README's table beside the code and the manual pages. avm_json refuses inputs alone."""
    rows = {row[0]: row[1] for row in table("README.md", "| Exit code | Meaning |")}
    numbers = re.findall(r"^pub const [A-Z]+: u8 = (\d+);", code("avm_input/src/replies.rt"), flags=re.M)
    pages = [paragraphs(section((TOP / f"man/{name}.1").read_text(), "EXIT STATUS")) for name, _, _ in PROGRAMS]
    return [
        ("README's exit codes", list(rows), numbers),
        ("man/avm.1, EXIT STATUS", pages[0], rows),
        ("man/avm_json.1, EXIT STATUS", pages[1], {**rows, "1": rows["1"].split(",")[0]}),
    ]


def compare() -> Tuple[int, List[str]]:
    """How many places were compared, and what is wrong."""
    wrong = []
    told = [row for program in PROGRAMS for row in of_program(*program)] + of_tables() + of_statuses()
    for where, found, wanted in told:
        if isinstance(found, dict) and isinstance(wanted, dict):
            keys = sorted(key for key in {*found, *wanted} if found.get(key) != wanted.get(key))
            wrong += [f"{where}, {key}: {found.get(key)!r}, and not {wanted.get(key)!r}" for key in keys]
        elif found != wanted:
            wrong.append(f"{where}: {found}, and not {wanted}")
    return len(told), wrong
