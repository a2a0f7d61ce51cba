"""The tokens of a source file in Rattle, in the tree of its brackets. Comments and white space are left out."""
import re

OPEN, CLOSE = "([{", ")]}"
# `>=` and `>>` are two tokens each, since `>` may close a list of types.
TOKEN = re.compile(
    r"""(?P<space>\s+|//[^\n]*)
    |(?P<raw>b?r(?P<hashes>\#*)".*?"(?P=hashes))
    |(?P<text>b?"(?:[^"\\]|\\.)*")
    |(?P<char>b'(?:[^'\\]|\\.[^']*)'|'(?:[^'\\]|\\[^u]|\\x..|\\u\{[^}]*\})')
    |(?P<life>'[A-Za-z_]\w*)
    |(?P<number>[0-9][A-Za-z0-9_]*(?:\.[0-9][A-Za-z0-9_]*)?)
    |(?P<name>[^\W\d]\w*'*)
    |(?P<mark>::|=>|->|==|!=|<=|&&|\|\||\.\.=|\.\.\.|\.\.|.)""",
    re.VERBOSE | re.DOTALL,
)


class Unread(Exception):
    """A form that the check does not read, at a line."""

    def __init__(self, line, why):
        super().__init__(why)
        self.line, self.why = line, why


class Token:
    """A token, or a pair of brackets with what stands between: `inner` is then a list, and `text` the opening bracket."""

    def __init__(self, kind, text, line, inner=None):
        self.kind, self.text, self.line, self.inner = kind, text, line, inner

    def is_group(self, bracket):
        return self.inner is not None and self.text == bracket

    def is_mark(self, *texts):
        return self.kind == "mark" and self.text in texts

    def is_name(self, *texts):
        return self.kind == "name" and (not texts or self.text in texts)

    def shown(self):
        if self.inner is None:
            return self.text
        return f"{self.text}{shown(self.inner)}{CLOSE[OPEN.index(self.text)]}"


def shown(tokens):
    """The tokens as a text that does not depend on the layout."""
    return " ".join(token.shown() for token in tokens)


def end_of_comment(source, at, line):
    """The place after the block comment that begins at a place; comments nest."""
    depth = 0
    for mark in re.finditer(r"/\*|\*/", source[at:]):
        depth += 1 if mark.group() == "/*" else -1
        if depth == 0:
            return at + mark.end()
    raise Unread(line, "a comment without an end")


def flat(source):
    """The tokens one by one, without the tree."""
    at, line = 0, 1
    while at < len(source):
        if source.startswith("/*", at):
            end, kind = end_of_comment(source, at, line), "space"
        else:
            match = TOKEN.match(source, at)
            end, kind = match.end(), match.lastgroup
        if kind in ("text", "raw") and "\n" in source[at:end]:
            raise Unread(line, "a text of several lines")
        if kind != "space":
            yield Token(kind, source[at:end], line)
        line += source.count("\n", at, end)
        at = end


def tree(source):
    """The tokens of a source as a list; what stands between two brackets is in the `inner` of their group."""
    top, stack = [], []
    here = top
    for token in flat(source):
        if token.kind == "mark" and token.text in OPEN:
            group = Token("group", token.text, token.line, [])
            here.append(group)
            stack.append((group, here))
            here = group.inner
        elif token.kind == "mark" and token.text in CLOSE:
            if not stack or OPEN.index(stack[-1][0].text) != CLOSE.index(token.text):
                raise Unread(token.line, "a closing bracket that opens nowhere")
            here = stack.pop()[1]
        else:
            here.append(token)
    if stack:
        raise Unread(stack[-1][0].line, "a bracket without an end")
    return top
