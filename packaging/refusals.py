#!/usr/bin/env python3
"""The table of refusals, packaging/refusals.txt, as the tables of docs/REFUSALS.md and of packaging/nimchout-explain. `--write` puts them
there, between their marks; without an argument it says which of the two files is not made of the table, and ends with 1 where one is not."""
import os
import re
import sys

TOP = os.path.join(os.path.dirname(os.path.abspath(__file__)), "..")
TABLE, PAGE, EXPLAIN = "packaging/refusals.txt", "docs/REFUSALS.md", "packaging/nimchout-explain"
# The columns of a table of the page, in this order, where its entries have them.
HEADS = {"line": "Line", "arguments": "Arguments", "store": "Store", "node": "Node", "command": "Command", "input": "Input",
         "answers": "Answers", "means": "Means", "do": "What to do"}
MARK = re.compile(r"(<!-- refusals: (\w+) -->\n).*?(<!-- end -->\n)", re.DOTALL)
IN_EXPLAIN = re.compile(r"(# ---- made of packaging/refusals.txt\n).*?(# ---- end\n)", re.DOTALL)


def read(path):
    with open(os.path.join(TOP, path), encoding="utf-8") as file:
        return file.read()


def write(path, text):
    with open(os.path.join(TOP, path), "w", encoding="utf-8") as file:
        file.write(text)


def entries_of(text):
    """The entries of the table by section, each by its keys."""
    sections, entry = {}, {}
    for number, line in enumerate(text.split("\n"), 1):
        section = re.fullmatch(r"\[(\w+)\]", line)
        key, colon, value = line.partition(": ")
        if line.startswith("#") or not line:
            entry = {}
        elif section:
            found = sections.setdefault(section[1], [])
        elif not colon or key not in ("name", *HEADS) or not value or key in entry:
            sys.exit(f"{TABLE}:{number}: this is no key with its value, or stands there twice")
        else:
            if not entry:
                found.append(entry)
            entry[key] = value
    for entry in (entry for section in sections.values() for entry in section):
        if not {"name", "line", "means", "do"} <= set(entry):
            sys.exit(f"{TABLE}: the entry {entry} lacks its name, its line, what it means or what to do")
    return sections


def cell(key, value):
    """A cell of the page: the line as code; a bar would divide the row."""
    return (f"`{value}`" if key == "line" else value).replace("|", "\\|")


def rows_of(entries):
    keys = [key for key in HEADS if any(key in entry for entry in entries)]
    lines = [[HEADS[key] for key in keys], ["---"] * len(keys)]
    lines += [[cell(key, entry.get(key, "")) for key in keys] for entry in entries]
    return "".join("| " + " | ".join(cells) + " |\n" if cells[0] != "---" else "|" + "|".join(cells) + "|\n" for cells in lines)


def sentence(text):
    """A part of a sentence as a sentence of plain text."""
    end = "" if text.endswith((".", ";`")) else "."
    text = text.replace("`", "")
    return text[:1].upper() + text[1:] + end


def page_of(text, sections):
    found = [match[1] for match in re.finditer(r"<!-- refusals: (\w+) -->", text)]
    if sorted(found) != sorted(sections):
        sys.exit(f"{PAGE} and {TABLE} have different sections: {sorted(set(found) ^ set(sections)) or found}")
    return MARK.sub(lambda match: match[1] + rows_of(sections[match[2]]) + match[3], text)


def explain_of(text, sections):
    lines = ["REFUSALS = {\n"]
    for section, entries in sections.items():
        lines.append(f'    "{section}": {{\n')
        lines += [f"        {entry['name']!r}: ({sentence(entry['means'])!r},\n            {sentence(entry['do'])!r}),\n" for entry in entries]
        lines.append("    },\n")
    made = "".join(lines) + "}\n"
    return IN_EXPLAIN.sub(lambda match: match[1] + made + match[2], text)


def made():
    """Each of the two files, as it should be."""
    sections = entries_of(read(TABLE))
    return {PAGE: page_of(read(PAGE), sections), EXPLAIN: explain_of(read(EXPLAIN), sections)}


def faults():
    """A line for each of the two files that is not made of the table."""
    return [f"{path} is not made of {TABLE}: run packaging/refusals.py --write" for path, text in made().items() if read(path) != text]


def main():
    if sys.argv[1:] == ["--write"]:
        for path, text in made().items():
            write(path, text)
        return 0
    if sys.argv[1:]:
        sys.exit("usage: packaging/refusals.py [--write]")
    print("".join(f"{fault}\n" for fault in faults()), end="")
    return 1 if faults() else 0


if __name__ == "__main__":
    sys.exit(main())
