#!/usr/bin/env python3
"""Tests the differential tests: the second implementation, or what puts it behind the library's names, with one rule changed must be
told from the right one.

usage, from the repository's root:  tests/differential/wrong.py [LABEL ..]

Each wrong/LABEL.edit names a file of the second implementation, or behind/src/FILE for one of tests/differential/src, a text that stands
in it once, what to put in its place (\\n is a line feed), and which comparisons must notice, parted by commas: plans, calls, unnoticed,
waiting, or both for plans and calls.
"""
import os
import re
import subprocess
import sys

SOURCE = "tests/second/src"
BEHIND = "tests/differential"
EDITS = "tests/differential/wrong"
TOOLS = "target/tests/release"
TARGET = "target/wrong"
SEED = "7"

# Each comparison is a program of TOOLS: what it is given, and how many cases.
COMPARISONS = {
    "plans": ("schedule", "20000"),
    "calls": ("libstandin.so", "200000"),
    "unnoticed": ("libstandin.so", "20000"),
    "waiting": ("libstandin.so", "20000"),
}


def comparisons(edit):
    """Those that an edit's `by` names."""
    return edit["by"].replace("both", "plans, calls").split(", ")


def read_edit(label):
    with open(f"{EDITS}/{label}.edit") as file:
        fields = dict(line.rstrip("\n").split(": ", 1) if ": " in line else (line.rstrip(":\n"), "") for line in file)
    fields["old"], fields["new"] = (re.sub(r"\\(n|\\)", lambda m: "\n" if m[1] == "n" else "\\", fields[k]) for k in ("old", "new"))
    return fields


def write_sources(edit, folder):
    """Copies the sources, and what puts them behind the library's names, with the edit made; the old text must stand there once."""
    copy(edit, SOURCE, "", folder)
    copy(edit, BEHIND, "behind/", f"{folder}/behind")
    copy(edit, f"{BEHIND}/src", "behind/src/", f"{folder}/behind/src")


def copy(edit, source, called, folder):
    """The edit names a file by what `called` begins with."""
    os.makedirs(folder, exist_ok=True)
    for name in (name for name in os.listdir(source) if name.endswith(".rs")):
        with open(f"{source}/{name}") as file:
            text = file.read()
        if called + name == edit["file"]:
            if text.count(edit["old"]) != 1:
                sys.exit(f"{folder}: the old text stands {text.count(edit['old'])} times in {name}")
            text = text.replace(edit["old"], edit["new"])
        with open(f"{folder}/{name}", "w") as file:
            file.write(text)


def rustc(*arguments):
    command = ["rustc", "--edition", "2021", "-C", "opt-level=1", "-C", "debuginfo=0", "--cap-lints", "allow", *arguments]
    subprocess.run(command, check=True)


def build(edit, folder):
    write_sources(edit, folder)
    second = f"second={folder}/libsecond.rlib"
    wanted = {COMPARISONS[name][0] for name in comparisons(edit)}
    rustc("--crate-type", "rlib", "--crate-name", "second", f"{folder}/lib.rs", "-o", f"{folder}/libsecond.rlib")
    if "schedule" in wanted:
        rustc("--crate-name", "schedule", "--extern", second, f"{folder}/main.rs", "-o", f"{folder}/schedule")
    if "libstandin.so" in wanted:
        rustc("--crate-type", "cdylib", "--crate-name", "standin", "--extern", second, f"{folder}/behind/standin.rs", "-o", f"{folder}/libstandin.so")


def notices(command):
    """What the comparison says of its first difference, or nothing; that something was never reached is no difference."""
    done = subprocess.run(command, stdout=subprocess.PIPE, stderr=subprocess.DEVNULL, text=True, timeout=120)
    found = re.search(r"(plan|list|pair) (\d+) of seed", done.stdout)
    if found:
        return f"{found[1]} {found[2]}"
    return "crash" if done.returncode != 0 and "never reached" not in done.stdout else ""


def check(label):
    edit, folder = read_edit(label), f"{TARGET}/{label}"
    build(edit, folder)
    noticed = []
    for name in comparisons(edit):
        given, count = COMPARISONS[name]
        noticed.append(notices([f"{TOOLS}/{name}", f"{folder}/{given}", count, SEED]))
    print(f"{label}: {', '.join(one or 'NOT NOTICED' for one in noticed)}", flush=True)
    return all(noticed)


def main():
    labels = sys.argv[1:] or sorted(name[:-5] for name in os.listdir(EDITS) if name.endswith(".edit"))
    missed = [label for label in labels if not check(label)]
    print(f"{len(labels) - len(missed)} of {len(labels)} wrong rules noticed")
    sys.exit(bool(missed))


main()
