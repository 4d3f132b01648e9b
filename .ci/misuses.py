#!/usr/bin/env python3
"""Tries the misuses that the compiler refuses before the prover sees them, so that they can be no must-fail edits.

Each file of .ci/misuses names a program and changes a text in one of its files; what the compiler then says must hold the
text after "says:". The program must compile as it stands. It is tried on a copy, and nothing is proved.
"""

import pathlib
import shutil
import subprocess
import sys
import tempfile

TOP = pathlib.Path(__file__).resolve().parent.parent


def told(path):
    """The marked lines of a misuse, by their marks."""
    lines = path.read_text().splitlines()
    return dict(line.split(": ", 1) for line in lines if line.split(": ", 1)[0] in ("program", "file", "old", "new", "says"))


def compiled(folder):
    """Whether the program compiles, and what was said."""
    run = subprocess.run(["rt", "try"], cwd=folder, capture_output=True, text=True, stdin=subprocess.DEVNULL)
    return run.returncode == 0, run.stdout + run.stderr


def verdict(path, copy):
    """What is wrong with a misuse, or nothing where it is refused as it says."""
    misuse = told(path)
    folder = copy / "crates" / misuse["program"]
    fine, output = compiled(folder)
    if not fine:
        return "the program is refused as it stands:\n" + output
    source = folder / misuse["file"]
    text = source.read_text()
    if text.count(misuse["old"]) != 1:
        return "its old text does not stand there once"
    source.write_text(text.replace(misuse["old"], misuse["new"]))
    fine, output = compiled(folder)
    source.write_text(text)
    if fine:
        return "it is not refused"
    return "" if misuse["says"] in output else "it is refused for something else:\n" + output


def main():
    with tempfile.TemporaryDirectory() as name:
        copy = pathlib.Path(name)
        shutil.copy(TOP / "crates.txt", copy)
        shutil.copytree(TOP / "crates", copy / "crates", ignore=shutil.ignore_patterns("out"))
        failed = 0
        for path in sorted((TOP / ".ci" / "misuses").iterdir()):
            wrong = verdict(path, copy)
            print(f"misuse {path.name}: {wrong or 'refused'}")
            failed += bool(wrong)
    return 1 if failed else 0


if __name__ == "__main__":
    sys.exit(main())
