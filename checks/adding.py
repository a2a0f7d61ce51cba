"""The lists of how a command is added, a row of docs/ARCHITECTURE.md and a paragraph of CONTRIBUTING.md, held to commands that are there:
each place of a list is there and has the command's name in any case, and each file of the code that has its variant is in the paragraph."""
import glob
import os
import re

# A command that starts the node with an event of its own, and a tool.
STARTS, TOOL = "Restore", "Check"
SPAN = re.compile(r"`([^`]+)`")


def places_of(text):
    """The files and folders that a text names; one in `src`, `specs` or `proofs` alone is of the crate that was named last."""
    crate = None
    for span in SPAN.finditer(text):
        name = span.group(1)
        if os.path.isdir(f"crates/{name}"):
            crate = name
        elif re.match(r"(src|specs|proofs)/", name):
            yield f"crates/{crate}/{name}"
        elif re.match(r"[a-z_]+/(src|specs|proofs)/", name):
            yield f"crates/{name}"
        elif "/" in name:
            yield name


def has(place, word):
    """Whether the file, or one of the folder, has the word in any case."""
    files = glob.glob(f"{place}/*") if os.path.isdir(place) else [place]
    for path in files:
        with open(path, encoding="utf-8", errors="replace") as file:
            if word.lower() in file.read().lower():
                return True
    return False


def files_with(variant):
    """The files of the code, the definitions and the proofs that have the word; tests aside."""
    files = (path for folder in ("src", "specs", "proofs") for path in glob.glob(f"crates/*/{folder}/**/*.*t", recursive=True))
    for path in files:
        with open(path, encoding="utf-8") as file:
            if not path.split("/")[1].endswith("_tests") and re.search(rf"\b{variant}\b", file.read()):
                yield path


def faults_of_places(page, text, word):
    for place in places_of(text):
        if not os.path.exists(place):
            yield f"{page}: a command is added in {place}, which is not there"
        elif not has(place, word):
            yield f"{page}: a command is added in {place}, which has no {word}"


def faults():
    with open("docs/ARCHITECTURE.md", encoding="utf-8") as file:
        row = re.search(r"^\| a command \|.*$", file.read(), re.MULTILINE)
    with open("CONTRIBUTING.md", encoding="utf-8") as file:
        paragraph = re.search(r"^\*\*A command\.\*\*.*?\n\n", file.read(), re.MULTILINE | re.DOTALL)
    if not row or not paragraph:
        yield "docs/ARCHITECTURE.md or CONTRIBUTING.md does not say how a command is added"
        return
    yield from faults_of_places("docs/ARCHITECTURE.md", row.group(0), STARTS)
    crate = ""
    for item in re.split(r"\n(?=\d\. )", paragraph.group(0)):
        # a file without its crate may be of the one that the item before named last
        text = crate + item
        yield from faults_of_places("CONTRIBUTING.md", text, TOOL if "is a tool" in item else STARTS)
        named_crates = [name for name in re.findall(r"`([a-z_]+)`", text) if os.path.isdir(f"crates/{name}")]
        crate = f"`{named_crates[-1]}` " if named_crates else ""
    named = set(places_of(paragraph.group(0)))
    for path in sorted(set(files_with(STARTS)) - named):
        yield f"CONTRIBUTING.md: the list of how a command is added has no {path}, which has {STARTS}"
