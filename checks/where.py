#!/usr/bin/env python3
"""The heads of the crates' lib files, `crates/NAME/src/lib.rt` or `main.rt`: what a crate promises in at most eight lines, and where each
thing of it is. docs/WHERE.md is made of them by `checks/where.py --write`; `checks/claims` tests that it is, and that each place is there."""
import os
import re
import sys

PAGE = "docs/WHERE.md"
LIST = "Where a thing is:"
MOST_LINES, MOST_COLUMNS = 8, 120
INSIDE = re.compile(r"`((?:src|specs|proofs)/[\w./-]*)`")
FLOOR = re.compile(r"^# ---- (\d \w[\w ]*): (.*)$")
START = """# Where a thing is

What each crate promises, and in which file a thing is, by floors, from the ground up, in the order of crates.txt. A file is named from the
folder `crates/` on. The page is made of the heads of the crates' lib files, `src/lib.rt` or of a program `src/main.rt`: a change is made
there, and `checks/where.py --write` makes the page anew.

"""
END = """
The tests of a crate `NAME` are in `NAME_tests`, over what `NAME` exports; those of `report_log` in `lcm_core_tests`, over the runs that are
reported, and those of `memory_outside` in `dsc_outside_tests`.
"""


def floors():
    """Each floor of crates.txt: its number and name, what it is, and its crates."""
    found = []
    with open("crates.txt", encoding="utf-8") as file:
        for line in file:
            floor = FLOOR.match(line)
            if floor:
                found.append((floor.group(1), floor.group(2), []))
            elif ":" in line.partition("#")[0]:
                found[-1][2].append(line.split(":")[0].split()[0])
    return found


def lib_of(crate):
    path = f"crates/{crate}/src/lib.rt"
    return path if os.path.isfile(path) else f"crates/{crate}/src/main.rt"


def head_of(crate):
    """The `//!` lines with which the lib file of a crate begins, without their marks."""
    lines = []
    with open(lib_of(crate), encoding="utf-8") as file:
        for line in file:
            if not line.startswith("//!"):
                break
            lines.append(line[3:].strip("\n").removeprefix(" "))
    return lines


def parts_of(head):
    """The lines of the promise, and the places, each joined to one line."""
    at = head.index(LIST) if LIST in head else len(head)
    promise, places = head[:at], []
    while promise and not promise[-1]:
        promise = promise[:-1]
    for line in head[at + 1 :]:
        if line.startswith("- "):
            places.append(line)
        elif line.startswith("  ") and places:
            places[-1] += " " + line.strip()
        else:
            places.append("")
    return promise, places


def section_of(crate):
    promise, places = parts_of(head_of(crate))
    named = [INSIDE.sub(lambda span: f"`{crate}/{span.group(1)}`", line) for line in promise + [""] * bool(places) + places]
    return f"### {crate}\n\n" + "\n".join(named) + "\n"


def text_of_page():
    text = START
    for name, _, crates in floors():
        listed = [f"[{crate}](#{crate})" for crate in crates if not crate.endswith("_tests")]
        text += f"- {name}: {', '.join(listed)}\n"
    for name, what, crates in floors():
        text += f"\n## {name}\n\n{what[0].upper()}{what[1:]}\n"
        text += "".join("\n" + section_of(crate) for crate in crates if not crate.endswith("_tests"))
    return text + END


def faults_of_head(crate):
    path, head = lib_of(crate), head_of(crate)
    promise, places = parts_of(head)
    if not 0 < sum(1 for line in promise if line) <= MOST_LINES:
        yield f"{path}: its head says what the crate promises in 1 to {MOST_LINES} lines, and after '{LIST}' where each thing is"
    if any(len("//! " + line) > MOST_COLUMNS for line in head):
        yield f"{path}: a line of its head is longer than {MOST_COLUMNS} columns"
    for place in places:
        if ": " not in place:
            yield f"{path}: what is looked for and where it is have ': ' between them: {place}"
    for span in INSIDE.findall("\n".join(head)):
        if not os.path.exists(f"crates/{crate}/{span}"):
            yield f"{path}: {crate} has no {span}"


def faults():
    """A line for each head that is laid out otherwise or names what is not there, and one where the page is not made of the heads."""
    for _, _, crates in floors():
        for crate in filter(lambda name: os.path.isfile(lib_of(name)), crates):
            yield from faults_of_head(crate)
    with open(PAGE, encoding="utf-8") as page:
        if page.read() != text_of_page():
            yield f"{PAGE} is not that of the heads of the lib files: run checks/where.py --write"


def main():
    os.chdir(os.path.join(os.path.dirname(os.path.abspath(__file__)), ".."))
    if sys.argv[1:] != ["--write"]:
        sys.exit("usage: checks/where.py --write")
    text = text_of_page()
    with open(PAGE, "w", encoding="utf-8") as file:
        file.write(text)


if __name__ == "__main__":
    main()
