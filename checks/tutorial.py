"""The commands of the first screen of README.md and of docs/TUTORIAL.md, and what they print. `tutorial.py script` prints a script of bash that
runs each block of a page in one shell, and writes what it prints into FOLDER/PAGE.NUMBER; `tutorial.py compare FOLDER` compares these with
the pages."""
import re
import sys

BLOCK = re.compile(r"^```sh\n(.*?)^```\n(?:```\n(.*?)^```\n)?", re.DOTALL | re.MULTILINE)
FOLDER = "/check/out"
# Between the pages the machine is as it was.
AGAIN = """systemctl disable --quiet --now nimchout-boot.service nimchout-consistency.timer
dpkg --purge nimchout
rm -rf /var/lib/nimchout /srv/app
"""


def pages():
    """The text of each page that has commands, by its name."""
    with open("README.md", encoding="utf-8") as page:
        yield "README", page.read().partition("## Build it")[0]
    with open("docs/TUTORIAL.md", encoding="utf-8") as page:
        yield "TUTORIAL", page.read()


def blocks():
    """The name of each block, its commands, and the lines that it has to print, if any are given; `..` is any lines."""
    for name, text in pages():
        for number, match in enumerate(BLOCK.finditer(text), 1):
            yield f"{name}.{number}", match[1], match[2]


def script():
    """A command that fails does not end the shell into which somebody types it."""
    yield f"mkdir -p {FOLDER}\n"
    before = None
    for name, commands, _ in blocks():
        if before != name.partition(".")[0]:
            yield f"exec > {FOLDER}/between 2>&1\n" + (AGAIN if before else "") + "cd /root\n"
        before = name.partition(".")[0]
        yield f"exec > {FOLDER}/{name} 2> {FOLDER}/{name}.errors\n{commands}"
    yield f"exec > {FOLDER}/end\n"


def read(path):
    try:
        with open(path, encoding="utf-8", errors="replace") as file:
            return file.read()
    except FileNotFoundError:
        return None


def fault_of(folder, name, commands, wanted):
    """What is wrong with what a block printed, or None. A block without lines prints none; what apt says is its own."""
    found = read(f"{folder}/{name}")
    if found is None:
        return "it was not reached"
    pattern = "".join("(?:.*\n)*" if line == ".." else re.escape(line) + "\n" for line in (wanted or "").splitlines())
    if re.fullmatch(pattern, found) or (wanted is None and re.search(r"\bapt(-get)? ", commands)):
        return None
    return found + (read(f"{folder}/{name}.errors") or "")


def main():
    if sys.argv[1:] == ["script"]:
        print("".join(script()), end="")
        return 0
    passed = failed = 0
    for name, commands, wanted in blocks():
        fault = fault_of(sys.argv[2], name, commands, wanted)
        passed, failed = (passed + 1, failed) if fault is None else (passed, failed + 1)
        if fault is not None:
            print(f"FAILED: the block {name}, which begins {commands.splitlines()[0]!r}, printed")
            print("\n".join("    " + line for line in fault.splitlines()[:30]))
    print(f"{passed} passed, {failed} failed")
    return 0 if passed > 20 and failed == 0 else 1


if __name__ == "__main__":
    sys.exit(main())
