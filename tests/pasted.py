"""Does what a page tells its reader: writes the files that it shows, pastes its commands into one shell, from the top, and compares what
they print.

    pasted.py PAGE FOLDER [BLOCK..]      FOLDER: where the reader begins; BLOCK: the only ones that are not for pasting here

A block of commands is fenced as `sh`, and what it prints follows as `text`; without that it prints nothing. A block in another language
is a file, whose name is the last word in backticks before it. A block without a language is shown alone.
"""

import re
import subprocess
import sys
from pathlib import Path
from typing import Iterator, List, NamedTuple, Tuple

ENV = {"PATH": "/usr/bin:/bin", "HOME": "/nonexistent", "LC_ALL": "C.UTF-8"}


class Block(NamedTuple):
    line: int
    language: str
    text: str
    name: str  # the last word in backticks before it


def fail(why: str) -> None:
    sys.exit(f"{sys.argv[1]}, {why}")


def blocks(page: str) -> Iterator[Block]:
    for found in re.finditer(r"^```(\w*)\n(.*?)^```$", page, flags=re.S | re.M):
        before = re.sub(r"^```.*?^```$", "", page[: found.start()], flags=re.S | re.M)
        names = re.findall(r"`([^`\n]+)`", before)
        yield Block(page[: found.start()].count("\n") + 1, found[1], found[2], names[-1] if names else "")


def steps(page: str, others: List[str]) -> Tuple[List[str], List[Tuple[Block, str]]]:
    """The lines of a script, which keeps what each block prints in a file of its number, and the blocks with what they should print."""
    script: List[str] = []
    ran: List[Tuple[Block, str]] = []
    last = None
    for block in blocks(page):
        if block.language == "sh":
            script += [f'exec > "$SAID/{len(ran)}" 2>&1', block.text]
            ran.append((block, ""))
        elif block.language == "text":
            if last is None or last.language != "sh":
                fail(f"line {block.line}: no command prints this")
            ran[-1] = ran[-1][0], block.text
        elif block.language:
            script.append(f"cat > '{block.name}' << 'END OF {block.name}'\n{block.text}END OF {block.name}")
        elif block.text.strip() not in others:
            fail(f"line {block.line}: nobody runs this")
        last = block
    return script, ran


def main() -> None:
    page, folder, *others = sys.argv[1:]
    script, ran = steps(Path(page).read_text(), others)
    said = Path(folder) / ".said"
    said.mkdir()
    subprocess.run(["bash", "-c", "\n".join(script)], cwd=folder, env={**ENV, "SAID": str(said)}, stdin=subprocess.DEVNULL, check=False)
    for number, (block, wanted) in enumerate(ran):
        file = said / str(number)
        found = file.read_text() if file.exists() else "nothing: the shell has ended before\n"
        if found != wanted:
            fail(f"line {block.line}:\n{block.text}shown:\n{wanted}found:\n{found}")
    print(f"{page}: {len(ran)} blocks are pasted, and print what they should")


main()
