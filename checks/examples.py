#!/usr/bin/env python3
"""Runs the examples of README.md and docs/USING.md with the built assembler, and compares what they print.

    checks/examples.py build/as

An example is a line that begins with four blanks and `$ `; what it prints stands behind it, up to the next one or the
end of the block. `cat FILE` makes the file of what stands behind it. The examples of a document run in one folder, in
order; `$GAS` is the folder `gcc/` beside the assembler. Blanks are compared as one, since tabs are shown as blanks.

A row of a table that begins with a source and a message, each in backquotes, says that the source is refused with that
message: it is assembled alone.

Prints each example that prints something else, and ends with 1 then. One that wants a program which is not on PATH is
not run, and told. So is how many lines the other blocks have, which show commands without what they print.
"""
import os
import pathlib
import re
import shutil
import subprocess
import sys
import tempfile

TOP = pathlib.Path(__file__).resolve().parent.parent
DOCUMENTS = ("README.md", "docs/USING.md")
PROGRAMS = ("gcc", "clang", "cmake", "make", "objdump", "addr2line", "nm")
ROW = re.compile(r"\| `([^`]+)` \| `([^`]+)` \|")


def examples(text: str) -> tuple[list[tuple[str, list[str]]], int]:
    """Each command with the lines that stand behind it, and how many lines stand in blocks without commands."""
    found: list[tuple[str, list[str]]] = []
    block, others = "none", 0
    for line in text.splitlines():
        if line.startswith("    $ "):
            found.append((line[6:], []))
            block = "commands"
        elif line.startswith("    ") and block == "commands":
            found[-1][1].append(line[4:])
        elif line.startswith("    ") and block in ("may begin", "others"):
            others += 1
            block = "others"
        elif line:
            block = "none"
        elif block == "none":
            block = "may begin"
    return found, others


def words(lines: list[str]) -> list[str]:
    return [" ".join(line.split()) for line in lines if line.strip()]


def missing(command: str) -> list[str]:
    """The programs that a command wants and that are not on PATH."""
    wanted = [name for name in PROGRAMS if re.search(rf"(?<![\w./-]){name}(?![\w./-])", command)]
    return [name for name in wanted if not shutil.which(name)]


def run(command: str, folder: pathlib.Path, path: dict[str, str]) -> list[str]:
    """What a command prints, on both streams."""
    how = ["bash", "-o", "pipefail", "-c", command]
    ran = subprocess.run(how, cwd=folder, env=path, stdout=subprocess.PIPE, stderr=subprocess.STDOUT,
                         text=True, check=False)
    return ran.stdout.splitlines()


def commands_fail(document: str, found: list[tuple[str, list[str]]], folder: pathlib.Path, path: dict[str, str]) -> int:
    """How many commands print something else than what stands behind them."""
    failed = 0
    for command, wanted in found:
        if re.fullmatch(r"cat \S+", command):
            (folder / command[4:]).write_text("\n".join(wanted) + "\n")
        elif missing(command):
            print(f"{document}: not run for want of {' and '.join(missing(command))}: {command}")
        else:
            printed = run(command, folder, path)
            if words(printed) != words(wanted):
                failed += 1
                print(f"{document}: $ {command}", *printed, sep="\n")
    return failed


def rows_fail(document: str, rows: list[tuple[str, str]], folder: pathlib.Path, path: dict[str, str]) -> int:
    """How many sources of a table are refused otherwise, or not."""
    failed = 0
    for source, message in rows:
        (folder / "row.s").write_text(source + "\n")
        printed = run("as -o row.o row.s", folder, path)
        if printed != ["row.s: Assembler messages:", f"row.s:1: Error: {message}"]:
            failed += 1
            print(f"{document}: | {source} |", *printed, sep="\n")
    return failed


def main() -> int:
    program = pathlib.Path(sys.argv[1]).resolve()
    failed = count = 0
    for document in DOCUMENTS:
        text = (TOP / document).read_text()
        found, others = examples(text)
        rows = [match.groups() for match in map(ROW.match, text.splitlines()) if match]
        with tempfile.TemporaryDirectory() as name:
            folder = pathlib.Path(name)
            (folder / "bin").mkdir()
            (folder / "bin/as").symlink_to(program)
            path = {**os.environ, "PATH": f"{folder / 'bin'}:{os.environ['PATH']}", "LC_ALL": "C"}
            path["GAS"] = f"{program.parent / 'gcc'}/"
            failed += commands_fail(document, found, folder, path) + rows_fail(document, rows, folder, path)
        count += len(found) + len(rows)
        print(f"{document}: {len(found)} examples, {len(rows)} rows; not run: {others} lines that show no output")
    print(f"{count} in all, {failed} print something else")
    return 1 if failed or not count else 0


if __name__ == "__main__":
    sys.exit(main())
