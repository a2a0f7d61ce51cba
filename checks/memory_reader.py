"""Finds each expression of a source file that makes an answer of out of memory, and what it stands under.

An expression may make one in an arm, an `if let` or a closure whose pattern is for one, and in `From::from` of one. A pattern is
for one where each of its alternatives names one: then something else was out of memory before. A form that the reader does not
know raises `Unread`, so that nothing is passed over.
"""
from source_tokens import Unread, shown, tree

NAMES = {"Memory", "OutOfMemory", "NoMemory", "AllocError", "AllocFailed"}
ORIGINS = {"Memory": {"mof_values", "memory", "crate", "self", "super"}, "AllocError": {"std", "alloc"}, "AllocFailed": {"std", "alloc"}}
# What a file may not define, since the rules go by these names.
KEPT = NAMES | {"From", "Err", "Result"}
ROOTS = {"std", "alloc", "mof_values"}
HOME = ("crates/mof_values/src/memory.rt", "Memory")
# The objects in memory say by this field that a call failed since it was out of memory.
FLAG = "short"
QUALIFIERS = {"const", "final"}
ITEMS = {"fn", "use", "struct", "enum", "impl", "trait", "type", "static", "const", "mod", "ghost", "macro_rules", "pub"}
NO_OPERAND = {"return", "break", "else", "in", "move", "mut", "ref", "as", "match", "if", "while"}
NOWHERE = ("-", 0)
BLOCKS = {"match", "if", "while", "for", "loop", "unsafe", "const", "async"}
MACROS = {"format", "matches", "print", "println", "prove", "prove_eq", "prove_ne", "unreachable", "vec", "write", "writeln"}


class Found:
    """An expression that makes an answer of out of memory and stands where it may not, or a definition that would hide one.
    `under` is the condition or the pattern that it stands under, `-` for none, and `condition_line` the line of that; `body` is
    the body of its function."""

    def __init__(self, line, what, function, under, body):
        self.line, self.what, self.function, self.body = line, what, function, body
        self.under, self.condition_line = under


def index(tokens, at, wanted):
    """The place of the first token from `at` on for which `wanted` holds; the number of tokens where there is none."""
    while at < len(tokens) and not wanted(tokens[at]):
        at += 1
    return at


def is_body(token):
    return token.is_group("{")


def angle_end(tokens, at):
    """The place after the angle brackets that open at `at`."""
    depth = 0
    for place in range(at, len(tokens)):
        depth += tokens[place].is_mark("<") - tokens[place].is_mark(">")
        if depth == 0:
            return place + 1
    raise Unread(tokens[at].line, "angle brackets without an end")


def parts(tokens, mark):
    """The tokens between marks, with no part where a mark is the last token; marks in angle brackets of a path do not count."""
    pieces, here, at = [], [], 0
    while at < len(tokens):
        if tokens[at].is_mark("::") and at + 1 < len(tokens) and tokens[at + 1].is_mark("<"):
            end = angle_end(tokens, at + 1)
            here, at = here + tokens[at:end], end
        elif tokens[at].is_mark(mark):
            pieces, here, at = pieces + [here], [], at + 1
        else:
            here, at = here + [tokens[at]], at + 1
    return pieces + [here] if here else pieces


def typed_parts(tokens):
    """Parameters with their types between commas; those in angle brackets do not count."""
    pieces, depth = [[]], 0
    for token in tokens:
        depth += token.is_mark("<") - token.is_mark(">")
        if token.is_mark(",") and depth == 0:
            pieces.append([])
        else:
            pieces[-1].append(token)
    return pieces


def path_at(tokens, at):
    """The names of the path at a place, without the arguments of its types, and the place after it."""
    names, end = [tokens[at].text], at + 1
    while end + 1 < len(tokens) and tokens[end].is_mark("::"):
        if tokens[end + 1].is_name():
            names, end = names + [tokens[end + 1].text], end + 2
        elif tokens[end + 1].is_mark("<"):
            end = angle_end(tokens, end + 1)
        else:
            break
    return names, end


def parameters_of(tokens, at):
    """The names of the parameters of types whose angle brackets open at a place."""
    depth, names = 0, set()
    for place in range(at, angle_end(tokens, at)):
        if depth == 1 and tokens[place - 1].is_mark("<", ","):
            names.add(tokens[place].text)
        depth += tokens[place].is_mark("<") - tokens[place].is_mark(">")
    return names


def is_memory_type(tokens):
    """Whether a type is the plain name of an error of memory, as `alloc::AllocError` or `AllocFailed<T>`."""
    if not tokens or not tokens[0].is_name():
        return False
    names, end = path_at(tokens, 0)
    if end < len(tokens) and tokens[end].is_mark("<"):
        end = angle_end(tokens, end)
    return end == len(tokens) and names[-1] in NAMES


def names_of(tokens):
    """Every name in the tokens, at any depth."""
    for token in tokens:
        if token.inner is not None:
            yield from names_of(token.inner)
        elif token.is_name():
            yield token.text


def sets_flag(tokens, at, end):
    """Whether the flag at a place is given a value, in a literal or by an assignment, that is not written `false`."""
    field = end < len(tokens) and tokens[end].is_mark(":") and not (at > 0 and tokens[at - 1].is_mark("."))
    if end + 1 < len(tokens) and tokens[end].is_mark("|", "&", "^") and tokens[end + 1].is_mark("="):
        return True
    value = parts(tokens[end + 1:index(tokens, end, lambda token: token.is_mark(";"))], ",")
    return end < len(tokens) and (field or tokens[end].is_mark("=")) and (not value or shown(value[0]) != "false")


def uses_of(tokens, before=()):
    """The paths of a `use` with the names that they are given: (names, name given or None)."""
    if not tokens:
        return
    if tokens[0].is_mark("::"):
        tokens = tokens[1:]
    if tokens[-1].is_group("{"):
        front = before + tuple(token.text for token in tokens[:-1] if token.is_name())
        for piece in parts(tokens[-1].inner, ","):
            yield from uses_of(piece, front)
        return
    place = index(tokens, 0, lambda token: token.is_name("as"))
    names = before + tuple(token.text for token in tokens[:place] if token.is_name())
    yield names, tokens[place + 1].text if place + 1 < len(tokens) else None


class Reader:
    """Reads one file. `found` holds what may not stand there."""

    def __init__(self, path, source):
        self.path, self.found, self.stood = path, [], 0
        self.imported, self.self_is_memory = set(), False
        self.function, self.under, self.body = "-", NOWHERE, None
        try:
            self.module(tree(source))
        except Unread as unread:
            self.fault(unread.line, f"{unread.why}: the check does not read it")
        except IndexError:
            self.fault(0, "something has no end: the check does not read it")

    def fault(self, line, what):
        self.found.append(Found(line, what, self.function, self.under, self.body))

    def keeps(self, name, line):
        """A file defines nothing by a name that the rules go by."""
        if name in KEPT and (self.path, name) != HOME:
            self.fault(line, f"another {name} is defined")

    def keeps_all(self, names, line):
        for name in sorted(KEPT & set(names)):
            self.fault(line, f"a parameter or a field has the name {name}")

    # Items

    def module(self, tokens):
        """A module's items. What its `use` lines bring in counts in all of it, and in no module inside."""
        before, self.imported = self.imported, set()
        at = 0
        while at < len(tokens):
            if tokens[at].is_name("use") and not (at and tokens[at - 1].is_name("ghost")):
                head = at - 1 - (at > 1 and tokens[at - 1].is_group("("))
                head -= head >= 0 and tokens[head].is_name("pub")
                inner = head > 0 and tokens[head - 1].is_mark("!")
                plain = head < 0 or inner or not tokens[head].is_group("[")
                end = index(tokens, at, lambda token: token.is_mark(";"))
                self.imports(tokens[at + 1:end], plain)
            at += 1
        self.items(tokens)
        self.imported = before

    def imports(self, tokens, plain):
        for names, given in uses_of(tokens):
            last, line = names[-1], tokens[0].line
            if last in NAMES and given is not None or given in KEPT | ROOTS:
                self.fault(line, f"{last} gets the name {given}")
            elif last in NAMES:
                variant = len(names) > 1 and names[-2][0].isupper()
                if not plain or not (variant or names[0] in ORIGINS.get(last, ())):
                    self.fault(line, f"a {last} of another place")
                self.imported.add(last)

    def items(self, tokens, makes=False):
        at = 0
        while at < len(tokens):
            at = self.item(tokens, at, makes)

    def item(self, tokens, at, makes=False):
        """Reads the item at a place, and gives the place after it. `makes`: a function `from` there is given out of memory."""
        start, marks = at, []
        while at + 1 < len(tokens) and tokens[at].is_mark("#"):
            at += 1 + tokens[at + 1].is_mark("!")
            marks, at = marks + [tokens[at]], at + 1
        if at == len(tokens):
            return at
        if "cfg (test)" in [shown(mark.inner) for mark in marks]:
            return self.passed_over(tokens, at)
        if tokens[at].is_name("pub"):
            at += 2 if tokens[at + 1].is_group("(") else 1
        head = index(tokens, at, lambda token: not token.is_name(*QUALIFIERS))
        if head < len(tokens) and tokens[head].is_name("fn"):
            return self.fn(tokens, head, makes)
        reader = getattr(self, f"item_{tokens[at].text}", None) if tokens[at].is_name() else None
        if reader is None or at + 1 == len(tokens):
            raise Unread(tokens[start].line, f"an item that begins {shown(tokens[start:start + 4])}")
        return reader(tokens, at, marks)

    def passed_over(self, tokens, at):
        """An item for tests is read and what is found there is dropped."""
        found, self.found = self.found, []
        end = self.item(tokens, at)
        self.found = found
        return end

    def item_ghost(self, tokens, at, _):
        """What stands for proofs alone, to its semicolon."""
        end = index(tokens, at, lambda token: token.is_mark(";"))
        if self.body is not None or any(token.is_name("fn", "impl", "mod") for token in tokens[at:end]):
            raise Unread(tokens[at].line, "ghost")
        return end + 1

    def item_use(self, tokens, at, _):
        end = index(tokens, at, lambda token: token.is_mark(";"))
        if self.body is not None:
            for names, given in uses_of(tokens[at + 1:end]):
                if {names[-1], given} & (KEPT | ROOTS):
                    self.fault(tokens[at].line, f"{given or names[-1]} is brought into a function")
        return end + 1

    def item_mod(self, tokens, at, _):
        if tokens[at + 1].text in ROOTS:
            self.fault(tokens[at].line, f"a module has the name {tokens[at + 1].text}")
        if tokens[at + 2].is_group("{"):
            self.module(tokens[at + 2].inner)
        return at + 3

    def item_const(self, tokens, at, _):
        """A constant or a static: its value is an expression."""
        name = tokens[at + 1].text
        self.keeps(name, tokens[at].line)
        end = index(tokens, at, lambda token: token.is_mark(";"))
        value = index(tokens, at, lambda token: token.is_mark("="))
        before, self.function = self.function, name if self.function == "-" else self.function
        self.walk(tokens[min(value, end):end], False)
        self.function = before
        return end + 1

    item_static = item_const

    def item_type(self, tokens, at, _):
        end = index(tokens, at, lambda token: token.is_mark(";"))
        self.keeps(tokens[at + 1].text, tokens[at].line)
        value = index(tokens, at, lambda token: token.is_mark("="))
        if is_memory_type(tokens[value + 1:end]):
            self.fault(tokens[at].line, f"{tokens[at + 1].text} is another name of {shown(tokens[value + 1:end])}")
        return end + 1

    def item_struct(self, tokens, at, marks):
        name, line = tokens[at + 1].text, tokens[at].line
        self.keeps(name, line)
        end = index(tokens, at, lambda token: token.is_mark(";") or is_body(token))
        for mark in marks:
            if name in NAMES and "Default" in names_of(mark.inner):
                self.fault(mark.line, f"{name} has a default")
        return end + 1

    def item_enum(self, tokens, at, _):
        self.keeps(tokens[at + 1].text, tokens[at].line)
        end = index(tokens, at, is_body)
        inner = tokens[end].inner
        for variant in parts(inner, ","):
            name = index(variant, 0, lambda token: token.is_name())
            made = {"default", "from"} & set(names_of(variant))
            if name < len(variant) and variant[name].text in NAMES and made:
                self.fault(variant[name].line, f"{variant[name].text} is made by {made.pop()}")
        return end + 1

    def item_trait(self, tokens, at, _):
        self.keeps(tokens[at + 1].text, tokens[at].line)
        if tokens[at + 2].is_mark("<"):
            self.keeps_all(parameters_of(tokens, at + 2), tokens[at].line)
        end = index(tokens, at, is_body)
        self.items(tokens[end].inner)
        return end + 1

    def item_macro_rules(self, tokens, at, _):
        self.fault(tokens[at].line, f"the macro {tokens[at + 2].text}: the check does not read it")
        return at + 4 + (at + 4 < len(tokens) and tokens[at + 4].is_mark(";"))

    def item_impl(self, tokens, at, _):
        end = index(tokens, at, is_body)
        head = tokens[at + 1:end]
        if head and head[0].is_mark("<"):
            self.keeps_all(parameters_of(head, 0), tokens[at].line)
            head = head[angle_end(head, 0):]
        place = index(head, 0, lambda token: token.is_name("for"))
        of_trait, of_type = (head[:place], head[place + 1:]) if place < len(head) else ([], head)
        of_type = of_type[:index(of_type, 0, lambda token: token.is_name("where"))]
        makes = len(of_trait) > 3 and of_trait[0].is_name("From") and of_trait[1].is_mark("<") and is_memory_type(of_trait[2:-1])
        before, self.self_is_memory = self.self_is_memory, is_memory_type(of_type)
        self.items(tokens[end].inner, makes)
        self.self_is_memory = before
        return end + 1

    def fn(self, tokens, at, makes):
        """A function: its contract is no code, and its body is a block."""
        name, line = tokens[at + 1].text, tokens[at].line
        self.keeps(name, line)
        place = at + 2
        if tokens[place].is_mark("<"):
            self.keeps_all(parameters_of(tokens, place), line)
            place = angle_end(tokens, place)
        for parameter in typed_parts(tokens[place].inner):
            self.keeps_all(names_of(parameter[:index(parameter, 0, lambda token: token.is_mark(":"))]), line)
        place += 1
        while place < len(tokens) and not tokens[place].is_mark(";") and not is_body(tokens[place]):
            if tokens[place].is_name("requires", "ensures", "ghost"):
                place = index(tokens, place, is_body)
            place += 1
        if place < len(tokens) and is_body(tokens[place]):
            before = self.function, self.under, self.body
            self.function, self.under, self.body = name, NOWHERE, tokens[place]
            self.walk(tokens[place].inner, makes and name == "from")
            self.function, self.under, self.body = before
        return place + 1

    # Expressions. `ok` says that something was out of memory before.

    def walk(self, tokens, ok):
        at = 0
        while at < len(tokens):
            at = self.step(tokens, at, ok)

    def inside(self, tokens, ok, under):
        """Walks over what stands under a condition or a pattern."""
        before, self.under = self.under, (shown(under), under[0].line)
        self.walk(tokens, ok)
        self.under = before

    def step(self, tokens, at, ok):
        token = tokens[at]
        if token.inner is not None:
            self.walk(token.inner, ok)
        elif token.is_mark("#"):
            return at + 2
        elif token.is_mark("|", "||") and self.begins(tokens, at):
            return self.closure(tokens, at, ok)
        elif token.is_name():
            return self.word(tokens, at, ok)
        return at + 1

    def begins(self, tokens, at):
        """Whether an operand begins at a place, so that a bar there opens a closure."""
        if at == 0:
            return True
        last = tokens[at - 1]
        if last.kind == "name":
            return last.text in NO_OPERAND
        return last.kind == "mark" and not last.is_mark("?")

    def word(self, tokens, at, ok):
        token = tokens[at]
        reader = {"let": self.let, "for": self.each, "match": self.match, "if": self.condition, "while": self.condition}.get(token.text)
        if reader is not None:
            return reader(tokens, at, ok)
        if token.text == "unsafe" or token.text.endswith("'"):
            raise Unread(token.line, token.text)
        if token.text in ("requires", "ensures"):
            return index(tokens, at, is_body) + 1
        if token.text in ITEMS:
            return self.item(tokens, at)
        return self.named(tokens, at, ok)

    def named(self, tokens, at, ok):
        """A path: it makes out of memory where its last name is one, or where it calls something of one other than `from`."""
        names, end = path_at(tokens, at)
        if end + 1 < len(tokens) and tokens[end].is_mark("!") and tokens[end + 1].inner is not None:
            self.macro(names[-1], tokens[end + 1], ok)
            return end + 2
        field = at > 0 and tokens[at - 1].is_mark(".")
        compared = at > 0 and tokens[at - 1].is_mark("==", "!=") or end < len(tokens) and tokens[end].is_mark("==", "!=")
        made = names[-1] in NAMES or names == ["Self"] and self.self_is_memory
        called = names[-1] != "from" and set(names[:-1]) & NAMES
        if not field and (made and not compared or called) or names == [FLAG] and sets_flag(tokens, at, end):
            self.stood += ok
            if not ok:
                self.fault(tokens[at].line, "::".join(names))
        return end

    def macro(self, name, group, ok):
        """The tokens of a macro of the standard library are expressions, but for the pattern of `matches!`. What another does
        with its tokens is not known."""
        if name not in MACROS:
            for made in sorted(NAMES & set(names_of(group.inner))):
                self.fault(group.line, f"{made} in {name}!")
            ok = False
        if name != "matches":
            return self.walk(group.inner, ok)
        comma = index(group.inner, 0, lambda token: token.is_mark(","))
        self.walk(group.inner[:comma], ok)
        for piece in parts(group.inner[comma + 1:], ","):
            guard = index(piece, 0, lambda token: token.is_name("if"))
            self.pattern(piece[:guard])
            self.walk(piece[guard + 1:], ok)

    def let(self, tokens, at, ok):
        """The pattern and the type of a `let`; its value is read as what follows."""
        end = index(tokens, at, lambda token: token.is_mark(":", "=", ";"))
        value = index(tokens, end, lambda token: token.is_mark("=", ";"))
        if value == len(tokens):
            raise Unread(tokens[at].line, "a let without a value")
        if FLAG in names_of(tokens[at + 1:end]):
            self.fault(tokens[at].line, f"a binding has the name {FLAG}")
        self.pattern(tokens[at + 1:end])
        return value + 1

    def each(self, tokens, at, ok):
        end = index(tokens, at, lambda token: token.is_name("in"))
        self.pattern(tokens[at + 1:end])
        return end + 1

    def plain(self, tokens, line):
        """What stands before a block is an operand without a block of its own: then the first braces are those of the block."""
        if any(token.is_name(*BLOCKS) for token in tokens) or self.begins(tokens, len(tokens)):
            raise Unread(line, "a block before a block")

    def condition(self, tokens, at, ok):
        """An `if` or a `while`, with patterns or without."""
        end = index(tokens, at, is_body)
        head = tokens[at + 1:end]
        if end == len(tokens):
            raise Unread(tokens[at].line, "a condition without a block")
        self.plain(head, tokens[at].line)
        memory, patterns = False, any(token.is_name("let") for token in head)
        for piece in parts(head, "&&") if patterns else [head]:
            if piece and piece[0].is_name("let"):
                value = index(piece, 0, lambda token: token.is_mark("="))
                memory = self.pattern(piece[1:value]) or memory
                piece = piece[value + 1:]
            if patterns and any(token.is_mark("||") or token.is_name("let") for token in piece):
                raise Unread(tokens[at].line, "a pattern in a condition")
            self.walk(piece, ok)
        self.inside(tokens[end].inner, ok or memory, tokens[at:end])
        if end + 1 < len(tokens) and is_body(tokens[end + 1]):
            raise Unread(tokens[at].line, "a block after a block")
        return end + 1

    def match(self, tokens, at, ok):
        end = index(tokens, at, is_body)
        if end == len(tokens):
            raise Unread(tokens[at].line, "a match without arms")
        self.plain(tokens[at + 1:end], tokens[at].line)
        self.walk(tokens[at + 1:end], ok)
        self.arms(tokens[end].inner, ok)
        return end + 1

    def arms(self, tokens, ok):
        at = 0
        while at < len(tokens):
            while tokens[at].is_mark("#"):
                at += 2
            arrow = index(tokens, at, lambda token: token.is_mark("=>"))
            head = tokens[at:arrow]
            if arrow + 1 >= len(tokens):
                raise Unread(tokens[at].line, "an arm without a body")
            guard = index(head, 0, lambda token: token.is_name("if"))
            memory = self.pattern(head[:guard])
            if any(token.is_name("let") for token in head[guard:]):
                raise Unread(tokens[at].line, "a pattern in a guard")
            self.walk(head[guard + 1:], ok)
            at = self.arm_end(tokens, arrow + 1)
            self.inside(tokens[arrow + 1:at], ok or memory, head)
            at += at < len(tokens) and tokens[at].is_mark(",")

    def arm_end(self, tokens, at):
        """The place after the body of an arm that begins at a place."""
        follows = tokens[at + 1] if at + 1 < len(tokens) else None
        if is_body(tokens[at]) and (follows is None or not follows.is_mark(".", "?")):
            return at + 1
        end = at
        while end < len(tokens) and not tokens[end].is_mark(","):
            path = tokens[end].is_mark("::") and end + 1 < len(tokens) and tokens[end + 1].is_mark("<")
            end = angle_end(tokens, end + 1) if path else end + 1
        if any(token.is_mark("=>") for token in tokens[at:end]):
            raise Unread(tokens[at].line, "an arm without a comma")
        return end

    def closure(self, tokens, at, ok):
        """A closure whose parameter is out of memory is called with nothing else."""
        if tokens[at].is_mark("||"):
            return at + 1
        start, close = at, index(tokens, at + 1, lambda token: token.is_mark("|"))
        if close == len(tokens):
            raise Unread(tokens[at].line, "a bar without another")
        memory = False
        for parameter in filter(None, typed_parts(tokens[at + 1:close])):
            colon = index(parameter, 0, lambda token: token.is_mark(":"))
            memory = self.pattern(parameter[:colon]) or is_memory_type(parameter[colon + 1:]) or memory
        at = close + 1
        if at < len(tokens) and tokens[at].is_mark("->"):
            at = index(tokens, at, lambda token: is_body(token) or token.is_name("requires", "ensures"))
            while at < len(tokens) and not is_body(tokens[at]):
                at = index(tokens, at, is_body) + 1
            end = at + 1
        else:
            end = index(tokens, at, lambda token: token.is_mark(",", ";"))
        self.inside(tokens[at:end], ok or memory, tokens[start:close + 1])
        return end

    # Patterns

    def pattern(self, tokens):
        """Whether a pattern is for out of memory alone: each alternative names it."""
        if tokens and tokens[0].is_mark("|"):
            tokens = tokens[1:]
        if not tokens:
            raise Unread(0, "an empty pattern")
        return all([self.alternative(piece) for piece in parts(tokens, "|")])

    def alternative(self, tokens):
        while tokens and (tokens[0].is_mark("&", "&&") or tokens[0].is_name("mut", "ref")):
            tokens = tokens[1:]
        if len(tokens) == 1 and (tokens[0].is_group("(") or tokens[0].is_group("[")):
            return any([self.pattern(piece) for piece in parts(tokens[0].inner, ",")])
        if not NAMES & set(names_of(tokens)):
            return False
        if not tokens[0].is_name():
            raise Unread(tokens[0].line, f"the pattern {shown(tokens)}")
        if len(tokens) > 2 and tokens[1].is_mark("@"):
            if tokens[0].text in NAMES:
                self.fault(tokens[0].line, f"a binding has the name {tokens[0].text}")
            return self.alternative(tokens[2:])
        names, end = path_at(tokens, 0)
        inner = tokens[end:]
        if len(inner) > 1 or inner and inner[0].inner is None:
            raise Unread(tokens[0].line, f"the pattern {shown(tokens)}")
        fields = parts(inner[0].inner, ",") if inner else []
        within = any([self.field(piece) if is_body(inner[0]) else self.pattern(piece) for piece in fields])
        if names[-1] in NAMES and len(names) == 1 and names[0] not in self.imported:
            self.fault(tokens[0].line, f"{names[0]} is a binding here: no use brings it in")
            return within
        return within or names[-1] in NAMES

    def field(self, tokens):
        """A named field with its pattern, or a field's name alone, which binds it."""
        if len(tokens) > 2 and tokens[0].is_name() and tokens[1].is_mark(":"):
            return self.pattern(tokens[2:])
        self.keeps_all(names_of(tokens), tokens[0].line)
        return False
