#!/usr/bin/env python3
"""Which files of a crate's specs/ the layer above cites, by an import or in the clause of an exported call, and which serve private clauses
alone. Each specs/Lib.antt lists the two apart; `checks/claims` tests it, and `checks/layers.py --write` lays the lists out."""
import glob
import os
import re
import sys

ABOVE = "-- what the layer above cites"
PRIVATE = "-- for private clauses alone"
USE = re.compile(r"use\s+Rattle\.([a-z_0-9]+)\.specs\.([A-Z][A-Za-z0-9]*)(?:\.\{([^}]*)\}|\s+as\s+([a-z_0-9A-Z]+))?")


def read(path):
    with open(path, encoding="utf-8") as file:
        return file.read()


def files_of(crate, folder, ending):
    return sorted(glob.glob(f"crates/{crate}/{folder}/**/*{ending}", recursive=True))


def exported_names(crate):
    """The names that lib.rt hands on; of a program, none but main's callees count, and a public module hands on all."""
    root = f"crates/{crate}/src/lib.rt"
    if not os.path.isfile(root):
        return None
    text, names = read(root), set()
    for group in re.findall(r"^pub use [a-z_0-9:]+::(?:\{([^}]*)\}|[A-Za-z_0-9]+);", text, re.M):
        names.update(part.split()[0] for part in group.split(",") if part.strip())
    names.update(re.findall(r"^pub use [a-z_0-9:]+::([A-Za-z_0-9]+);", text, re.M))
    for module in re.findall(r"^pub mod ([a-z_0-9]+);", text, re.M):
        for path in (f"crates/{crate}/src/{module}.rt", *glob.glob(f"crates/{crate}/src/{module}/*.rt")):
            if os.path.isfile(path):
                names.update(re.findall(r"^pub (?:fn|struct|enum|trait|const) ([A-Za-z0-9_]+)", read(path), re.M))
    return names


def heads_of(text, exported):
    """The texts of the clauses that a caller in another crate meets: those of exported functions, of methods of exported types, of
    traits and of impls of traits, and the ghost members there."""
    lines, at, owner, public = text.split("\n"), 0, None, False
    while at < len(lines):
        line = lines[at]
        if re.match(r"^(unsafe )?impl\b", line):
            trait = re.search(r"\bfor\s+&?(?:'[a-z]+\s+)?([A-Za-z0-9_]+)", line)
            name = re.match(r"^(?:unsafe )?impl(?:<.*?>)?\s+(?:[A-Za-z0-9_:<>', ]+\s+for\s+)?([A-Za-z0-9_]+)", line)
            owner = trait.group(1) if trait else (name.group(1) if name else None)
            public = exported is None or owner in exported
            in_trait = bool(trait)
        elif re.match(r"^pub trait ([A-Za-z0-9_]+)", line):
            owner, public, in_trait = line.split()[2], True, True
        elif line == "}":
            owner, in_trait = None, False
        head = re.match(r"^(\s*)(pub )?(?:const )?(?:unsafe )?fn ([a-z_0-9]+)", line)
        if head or re.match(r"^\s+ghost (?!use)", line):
            start = at
            indent = re.match(r"^\s*", line).group(0)
            while at < len(lines) and lines[at] != indent + "{" and not lines[at].endswith((" {", ";", "};")) :
                at += 1
            block = "\n".join(lines[start : at + 1])
            if head:
                named = head.group(3) in (exported or ()) or exported is None
                if (owner is None and head.group(2) and named) or (owner and public and (head.group(2) or in_trait)):
                    yield block
            elif owner and public:
                yield block
        at += 1


def cited_files(crate):
    """Files of the crate's specs/ that a public clause of it names."""
    cited, exported = set(), exported_names(crate)
    for path in files_of(crate, "src", ".rt"):
        text = read(path)
        heads = "\n".join(heads_of(text, exported))
        words = set(re.findall(r"[^\s(){}\[\],.]+", heads))
        for owner, file, names, alias in USE.findall(text):
            if owner != crate:
                continue
            listed = [name.split(" as ")[-1].strip() for name in names.split(",") if name.strip()] or [alias]
            if words.intersection(listed):
                cited.add(file)
    return cited


def imported_files(crates):
    """For each crate, the files of its specs/ that another crate names."""
    found = {crate: set() for crate in crates}
    for crate in crates:
        for path in files_of(crate, "", ".rt") + files_of(crate, "", ".antt"):
            if "/out/" in path:
                continue
            for owner, file, _, _ in USE.findall(read(path)):
                if owner != crate and owner in found:
                    found[owner].add(file)
    return found


def closed(crate, files):
    """These files and those of the same specs/ that they name."""
    todo, done = list(files), set()
    while todo:
        file = todo.pop()
        path = f"crates/{crate}/specs/{file}.antt"
        if file in done or not os.path.isfile(path):
            continue
        done.add(file)
        todo += [other for owner, other, _, _ in USE.findall(read(path)) if owner == crate]
    return done


def layers():
    """For each crate with specs/: the files that the layer above cites, and the rest."""
    crates = [os.path.basename(path) for path in sorted(glob.glob("crates/*")) if os.path.isdir(path)]
    imported = imported_files(crates)
    for crate in crates:
        if os.path.isfile(f"crates/{crate}/specs/Lib.antt"):
            files = {os.path.basename(path)[:-5] for path in glob.glob(f"crates/{crate}/specs/*.antt")} - {"Lib"}
            above = closed(crate, imported[crate] | cited_files(crate)) & files
            yield crate, sorted(above), sorted(files - above)


def lists_of(above, private):
    """The text of a specs/Lib.antt: its files in two lists, each with a heading where there are both."""
    if not private:
        return "".join(f"pub mod {file}\n" for file in above)
    lists = [(ABOVE, above), (PRIVATE, private)]
    return "".join(head + "\n" + "".join(f"pub mod {file}\n" for file in files) for head, files in lists)


def faults():
    """A line for each specs/Lib.antt that is laid out otherwise."""
    for crate, above, private in layers():
        path = f"crates/{crate}/specs/Lib.antt"
        if read(path) != lists_of(above, private):
            yield f"{path}: what the layer above cites is {' '.join(above)}; for private clauses alone: {' '.join(private) or 'none'}"


def main():
    os.chdir(os.path.join(os.path.dirname(os.path.abspath(__file__)), ".."))
    if sys.argv[1:] != ["--write"]:
        sys.exit("usage: checks/layers.py --write")
    for crate, above, private in layers():
        with open(f"crates/{crate}/specs/Lib.antt", "w", encoding="utf-8") as file:
            file.write(lists_of(above, private))


if __name__ == "__main__":
    main()
