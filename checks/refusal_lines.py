"""The lines with which the programs refuse, as the definitions of their texts have them: each name once, with values of no meaning. A
definition here is `NAME PATTERN.. = TERM ++ TERM ..`, and a term is a text, a value, a parameter or another definition."""
import itertools
import re

# The definitions that say what a line is, and where the definitions that they name stand.
NODE = ("crates/lcm_program/specs/Refusal.antt", "crates/lcm_program/specs/InputWords.antt", "crates/lcm_program/specs/PeerWords.antt",
        "crates/mof_syntax/specs/Forms.antt")
SERVER = ("crates/pull_serving/specs/Printing.antt",)
TEXTS = ("crates/staged_text/specs/Endings.antt",)
FAULTS = ("crates/resource_kinds/specs/Names.antt",)
# What a value is printed as; an instance of a list may be one of the first part or of another.
VALUES = {"decimal": ["0"], "quoted": ['"x"'], "encode_utf8_all": ["x"], "checksum_of": ["0" * 64], "name_of": ["NodeStatus"],
          "spot_words": ["0.0", "1.0"]}
# Out of memory has a status of its own, and prints nothing; a link that failed is the status LinkFault.
NEVER = re.compile(r"\bMemory$|^PeerRefused Link$")
ROW = re.compile(r"^(\w+) (.*?)=\s(.*)$")
TERM = re.compile(r'\s*(?:\+\+)?\s*(?:Some \((?P<some>.*)\)$|codes "(?P<text>[^"]*)"|(?P<name>[\w.]+)(?P<rest>(?: (?:\([^()]*\)|[\w.]+))*))')


class Definitions:
    """The rows of each definition of some files: its patterns and its right side."""

    def __init__(self, paths):
        self.rows = {}
        for path in paths:
            with open(path, encoding="utf-8") as file:
                text = re.sub(r"--.*", "", file.read())
            for line in re.sub(r"\n[ \t]+", " ", text).split("\n"):
                row = ROW.match(line)
                if row and row[1] not in ("abbrev", "use", "unfoldable"):
                    self.rows.setdefault(row[1], []).append((row[2].split(), row[3].strip()))

    def texts(self, name, arguments=()):
        """What a definition may be printed as, given texts for the parameters that a row names and does not take apart."""
        for patterns, right in self.rows[name]:
            yield from self.of_terms(right, dict(zip(patterns, arguments)))

    def of_terms(self, right, known):
        if right in ("None", "[]"):
            return
        parts, place = [], 0
        while place < len(right):
            term = TERM.match(right, place)
            if not term:
                raise ValueError(f"{right[place:]!r} is no term that this check knows")
            place = term.end()
            parts.append(list(self.of_term(term, known)))
        yield from map("".join, itertools.product(*parts))

    def of_term(self, term, known):
        name = term["name"]
        if term["some"]:
            return self.of_terms(term["some"], known)
        if name is None:
            return [term["text"].replace("\\n", "")]
        if name in VALUES:
            return VALUES[name]
        if name == "flat_map":
            return self.texts(term["rest"].split()[0])
        if name in known:
            return [known[name]]
        arguments = [re.sub(r'^\(codes "(.*)"\)$', r"\1", it) for it in re.findall(r'\([^()]*\)|[\w.]+', term["rest"])]
        if name not in self.rows:
            raise ValueError(f"{name} is neither a value nor a definition that this check knows")
        return self.texts(name, arguments)


def lines():
    """Each line that begins with `refused`, with the name of the program that prints it."""
    for program, definition, paths in (("node", "reason_of", NODE), ("server", "refusal_line", SERVER),
                                       ("texts of stages", "line_of", TEXTS)):
        for text in Definitions(paths).texts(definition):
            reason = text.removeprefix("refused ")
            if not NEVER.search(reason):
                yield program, f"refused {reason}"


def faults():
    """The names of the faults of a resource."""
    return list(Definitions(FAULTS).texts("failure_name"))


def unexplained(explain):
    """What `explain`, the module of nimchout-explain, lacks or has too much: lines, names of faults, and names of entries."""
    reached = set()
    for program, line in lines():
        found = explain.entries_of(line)
        reached.update(found)
        if not found:
            yield f"{line!r} of the {program} has no entry"
    names = set(faults())
    yield from (f"the fault {name} of a resource has no entry" for name in sorted(names - set(explain.REFUSALS["faults"])))
    reached.update(("faults", name) for name in names)
    every = {(section, name) for section, entries in explain.REFUSALS.items() for name in entries}
    yield from (f"the entry {name} of {section} is of no line that a program has" for section, name in sorted(every - reached))


def unnoticed(explain):
    """The entries that could be taken away without a word of `unexplained`."""
    for section, entries in explain.REFUSALS.items():
        for name in list(entries):
            cause = entries.pop(name)
            if not any("has no entry" in fault for fault in unexplained(explain)):
                yield f"the entry {name} of {section} could be missing"
            entries[name] = cause
