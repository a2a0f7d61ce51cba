"""What the pages of the repository name: links, files and crates. `checks/claims` prints a line for each that is not there."""
import glob
import os
import re
import subprocess

# Where the names of files begin that a page gives from the top of the repository.
TOPS = "crates|checks|bench|docs|packaging|examples|\\.ci"
LINK = re.compile(r"\]\(([^()\s]+)\)")
FILE = re.compile(rf"(?<![\w/.~$-])(?:{TOPS})/[\w./*{{}},<>-]*\w")
SPAN = re.compile(r"`([^`\n]+)`")
# A file as it is named within a crate, and a name that has an underscore: a function, a definition, an edit, a crate.
INSIDE = re.compile(r"^(?:([a-z_0-9]+)/)?((?:src|specs|proofs|must-fail)/[\w./-]+\.(?:rt|antt|edit))$")
NAME = re.compile(r"^[a-z0-9]+(?:_[a-z0-9]+)+$")
# Pages that name what is no part of the repository.
OTHER_NAMES = ("docs/DEPLOY.md",)
FENCE = re.compile(r"^```.*?^```$", re.DOTALL | re.MULTILINE)


def pages():
    """The pages in Markdown, without what a build leaves."""
    found = glob.glob("**/*.md", recursive=True)
    return sorted(path for path in found if "/out/" not in path)


def anchors(path):
    """What a link into this page may end with: its headings, as GitHub names them."""
    with open(path, encoding="utf-8") as page:
        heads = re.findall(r"^#+ (.*)$", page.read(), re.MULTILINE)
    return {re.sub(r"[^\w\- ]", "", head.lower()).replace(" ", "-") for head in heads}


def is_there(name):
    """Whether a file of this name is there: `*` and {a,b} stand for several, NAME and .. for any, and out/ for what is built."""
    if "/out/" in name or re.search(r"NAME|\.\.|<", name):
        return True
    braces = re.search(r"\{([^{}]*)\}", name)
    if braces:
        return all(is_there(name.replace(braces.group(0), part, 1)) for part in braces.group(1).split(","))
    return bool(glob.glob(name))


def faults_of_links(path, text):
    for target in LINK.findall(FENCE.sub("", text)):
        if re.match(r"[a-z]+:", target):
            continue
        file, _, anchor = target.partition("#")
        file = os.path.join(os.path.dirname(path), file) if file else path
        if not os.path.exists(file):
            yield f"{path}: no file {target} to link to"
        elif anchor and anchor not in anchors(file):
            yield f"{path}: no heading {target} to link to"


def faults_of_names(path, text, words):
    """`words` are those of the code. A file `src/..`, `specs/..` or `proofs/..` stands in some crate, or in the one whose name is before it."""
    for name in sorted(set(FILE.findall(text))):
        # a page that stands in such a folder may name files from there
        if not is_there(name) and not is_there(os.path.join(os.path.dirname(path), name)):
            yield f"{path}: no file {name}"
    for line in text.split("\n"):
        for span in SPAN.findall(line):
            inside = INSIDE.match(span)
            if inside and not is_there(f"crates/{inside.group(1) or '*'}/{inside.group(2)}"):
                yield f"{path}: no file {span} in {inside.group(1) or 'a crate'}"
            elif NAME.match(span) and span not in words and path not in OTHER_NAMES:
                yield f"{path}: {span} is not in the repository"


def crates():
    """The crates that crates.txt lists."""
    with open("crates.txt", encoding="utf-8") as file:
        return {line.split(":")[0].split()[0] for line in file if ":" in line.partition("#")[0]}


def faults_of_lists():
    """The tables of checks/README.md, which checks/run reads, and of bench/README.md list what is there, and nothing else."""
    checks = {path for path in os.listdir("checks") if "." not in path and os.access(f"checks/{path}", os.X_OK) and os.path.isfile(f"checks/{path}")}
    benches = {path.split("/")[1] for path in glob.glob("bench/*/run")}
    for path, there in (("checks/README.md", checks - {"run", "refused_memory", "rows_by_try", "tutorial"}), ("bench/README.md", benches)):
        with open(path, encoding="utf-8") as page:
            rows = set(re.findall(r"^\| `([a-z_]+)`[^|]* \|", page.read(), re.MULTILINE))
        yield from (f"{path}: no row for {name}" for name in sorted(there - rows))
        yield from (f"{path}: {name} is not there" for name in sorted(rows - there))


def faults(words):
    listed = crates()
    known = words | listed
    for path in ("crates.txt", "README.md", *glob.glob("packaging/**/*", recursive=True), "demo", "dev"):
        if os.path.isfile(path) and not path.endswith(".md"):
            with open(path, encoding="utf-8", errors="replace") as file:
                known.update(re.findall(r"\w+", file.read()))
    for path in pages():
        with open(path, encoding="utf-8") as page:
            text = page.read()
        yield from faults_of_links(path, text)
        yield from faults_of_names(path, text, known)
    yield from faults_of_lists()
    costs = subprocess.run(["bench/cost"], stdout=subprocess.PIPE, text=True, check=False)
    with open("CONTRIBUTING.md", encoding="utf-8") as page:
        if costs.returncode or costs.stdout not in page.read():
            yield "CONTRIBUTING.md: the table of costs is not that of bench/cost: run bench/cost --write"
    for crate in sorted(listed):
        if not os.path.isdir(f"crates/{crate}"):
            yield f"crates.txt: there is no folder crates/{crate}"
