#!/usr/bin/env python3
"""Makes the inputs of checks/ample, and what must come of each.

    make_ample.py FOLDER

writes FOLDER/cases, a line for each case, with tabs between: the file of its input, the file of the lines that must come, the
exit status, the seconds of processor time that it may take, the words, and its name. A push and a meta are done on a new node; with + in front
of the words the node and its machine are those that the case before left, and +drift takes the machine's variables away; with = the input is the
node's store.
What must come is worked out here, by the rules of the README, and not by the program.
"""
import hashlib
import heapq
import os
import sys

HEADER = 'instance of OMI_ConfigurationDocument{Version="2.0.0";};'
LIMIT = 8_388_608  # the most bytes of a text
LONG = 2_097_152  # the bytes of a long one
SLOW = 3  # seconds that a text may take
PUSHED = 10  # and a push, which writes and syncs a file for each resource

folder = sys.argv[1]
cases = open(os.path.join(folder, "cases"), "w")
files = {}  # the name of the file that holds these bytes, by their digest


def file_of(text):
    """The name of a file that holds the bytes or the text."""
    content = text.encode() if isinstance(text, str) else text
    digest = hashlib.sha256(content).digest()
    if digest not in files:
        files[digest] = str(len(files))
        with open(os.path.join(folder, files[digest]), "wb") as file:
            file.write(content)
    return files[digest]


def case(name, words, text, status, lines, seconds=SLOW):
    """Writes a case; the text and the lines are bytes or text."""
    cases.write(f"{file_of(text)}\t{file_of(lines)}\t{status}\t{seconds}\t{words}\t{name}\n")


# ---- documents: resources by their ids and what each depends on, by place


def resource(place, depends, ids):
    names = ",".join(f'"{ids[q]}"' for q in depends)
    return f'instance of MSFT_EnvironmentResource{{ResourceID="{ids[place]}";Name="V{place}";Value="1";DependsOn={{{names}}};}};\n'


def document(ids, depends, header):
    """The resources in turn, and the header before that place."""
    parts = [resource(r, depends[r], ids) for r in range(len(depends))]
    parts.insert(header, HEADER + "\n")
    return "".join(parts)


def order_of(depends):
    """Each place of the order is the earliest resource whose dependencies stand before it."""
    open_, wanted_by = [len(set(d)) for d in depends], [[] for _ in depends]
    for r, d in enumerate(depends):
        for q in set(d):
            wanted_by[q].append(r)
    ready, order = [r for r, n in enumerate(open_) if n == 0], []
    heapq.heapify(ready)
    while ready:
        r = heapq.heappop(ready)
        order.append(r)
        for p in wanted_by[r]:
            open_[p] -= 1
            if open_[p] == 0:
                heapq.heappush(ready, p)
    return order


def environment_ids(count):
    return [f"[Environment]R{r}" for r in range(count)]


def document_cases(name, depends, headers, words=("check", "order", "test")):
    """What `check`, `order`, `test` and `push` answer of it on a machine without variables."""
    count, ids = len(depends), environment_ids(len(depends))
    order = order_of(depends)
    assert len(order) == count
    verdict = f"not compliant {count}" if count else "compliant"
    lines = {
        "check": (0, f"ok {count}\n"),
        "order": (0, "".join(f'"{ids[r]}"\n' for r in order)),
        "test": (1 if count else 0, "".join(f'test "{ids[r]}" no\n' for r in order) + f"resources {count} succeeded 0\n{verdict}\n"),
        "push": (0, "".join(f'test "{ids[r]}" no\nset "{ids[r]}" done\ntest "{ids[r]}" yes\n' for r in order)
                 + f"resources {count} succeeded {count}\ncompliant\nend promoted\n"),
    }
    for header in headers:
        text = document(ids, depends, header)
        for word in words:
            case(f"{name}, the header at {header}", word, text, *lines[word], PUSHED if word == "push" else SLOW)


def headers_of(count):
    return sorted({0, count // 2, count})


def documents():
    for count in [*range(41), 300, 4096]:
        document_cases(f"{count} resources", [[] for _ in range(count)], headers_of(count))
        document_cases(f"{count} resources", [[] for _ in range(count)], [count], ("push",))
    for most in range(1, 13):
        for count in (40, 300):
            after = [list(range(r + 1, min(r + 1 + most, count))) for r in range(count)]
            document_cases(f"{count} resources, each on {most} after it", after, [count], ("check", "order"))
            before = [list(range(max(0, r - most), r)) for r in range(count)]
            document_cases(f"{count} resources, each on {most} before it", before, [0], ("order", "test", "push"))
    count = 4096
    document_cases("a chain of 4096 from the last", [[r + 1] if r + 1 < count else [] for r in range(count)], [count])
    document_cases("a chain of 4096 from the first", [[r - 1] if r else [] for r in range(count)], [count])
    document_cases("4096 resources on 12 after them", [list(range(r + 1, min(r + 13, count))) for r in range(count)], [0])
    document_cases("4096 resources on the first", [[0] if r else [] for r in range(count)], [count])
    document_cases("a resource on all other 4095", [list(range(1, count)) if r == 0 else [] for r in range(count)], [count])


def cycles():
    """The walk begins at the least resource that is left, and here that one is on the cycle."""
    for length in (1, 2, 3, 12, 300, 4096):
        for before, after in ((0, 0), (3, 2), (700, 500)) if length < 4096 else ((0, 0),):
            count = before + length + after
            depends = [[] for _ in range(count)]
            for step in range(length):
                depends[before + step] = [before + (step + 1) % length]
            for r in range(before + length, count):
                depends[r] = [before]
            text = document(environment_ids(count), depends, count)
            walk = "".join(f" {before + step}" for step in range(length))
            for word in ("check", "order", "test"):
                case(f"a cycle of {length} after {before}", word, text, 3, f"refused Cycle{walk}\n")


def unknown_ids():
    for count in (1, 2, 7, 40, 300, 4096):
        for place in sorted({0, 1, count // 2, count - 1} & set(range(count))):
            ids = environment_ids(count) + ["[Environment]Missing"]
            for header in headers_of(count):
                depends = [[count] if r >= place else [] for r in range(count)]
                index = place + (1 if header <= place else 0)
                text = document(ids, depends, header)
                case(f"an unknown id at {place} of {count}, the header at {header}", "check", text, 3, f'refused DependsUnknown 0.{index} "[Environment]Missing"\n')


def log(id_, more=""):
    return f'instance of MSFT_LogResource{{ResourceID="{id_}";Message="m";{more}}};'


def long_values():
    for name in ("x" * 253, "ä" * 126 + "x", "€" * 84 + "x"):
        id_ = "[E]" + name
        assert len(id_.encode()) == 256
        case("an id of 256 bytes", "order", log(id_) + HEADER, 0, f'"{id_}"\n')
        case("a dependency of 256 bytes", "order", log("[E]A", f'DependsOn="{id_}";') + log(id_) + HEADER, 0, f'"{id_}"\n"[E]A"\n')
        case("an unknown id of 256 bytes", "order", log("[E]A", f'DependsOn="{id_}";') + HEADER, 3, f'refused DependsUnknown 0.0 "{id_}"\n')
        case("an id of 257 bytes", "order", log(id_ + "x") + HEADER, 3, "refused Part 0 BadResourceId 0\n")
        case("two ids of 256 bytes", "check", log(id_) + HEADER + log(id_.upper() if name.isascii() else id_), 3, "refused Part 0 DuplicateId 0 2\n")
    name = "n" * 255
    head = "instance of A\n{\n"
    for spelled in (name, "ä" * 255):
        case("a property of 255 characters", "canon", f"{head} {spelled} = 1;\n}};\n", 0, f"{head} {spelled} = 1;\n}};\n")
        case("a class of 255 characters", "canon", f"instance of {spelled}\n{{\n}};\n", 0, f"instance of {spelled}\n{{\n}};\n")
        case("an alias of 255 characters", "canon", f"instance of A as ${spelled}\n{{\n}};\n", 0, f"instance of A as ${spelled}\n{{\n}};\n")
        case("a property of 256 characters", "canon", f"{head} {spelled}x = 1;\n}};\n", 3, f"refused TooMany {len(head) + 1}\n")
        case("a property that stands twice", "check", f"instance of A{{{spelled}=1;{spelled}=2;}};{HEADER}", 3, f"refused Part 0 DuplicateProperty 0 {spelled}\n")
    for size in (0, 1, 100 * 1024, 64 * 1024, 64 * 1024 + 1, LIMIT - 200):
        text = f'{head} X = "{"x" * size}";\n}};\n'
        case(f"a literal of {size} bytes", "canon", text, 0, text)
        resource_ = f'instance of MSFT_EnvironmentResource{{ResourceID="[E]A";Name="V";Value="{"x" * size}";}};'[: LIMIT]
        if len(resource_) + len(HEADER) <= LIMIT:
            case(f"a value of {size} bytes", "test", resource_ + HEADER, 1, 'test "[E]A" no\nresources 1 succeeded 0\nnot compliant 1\n')
        log_ = f'instance of MSFT_LogResource{{ResourceID="[L]A";Message="{"m" * size}";}};'
        if len(log_) + len(HEADER) <= LIMIT:
            case(f"a message of {size} bytes", "test", log_ + HEADER, 1, 'test "[L]A" no\nresources 1 succeeded 0\nnot compliant 1\n')
    many = ",".join(["1"] * 4096)
    spelled = ", ".join(["1"] * 4096)
    case("an array of 4096", "canon", f"{head} X = {{{many}}};\n}};\n", 0, f"{head} X = {{{spelled}}};\n}};\n")
    properties = "".join(f" P{n} = {n};\n" for n in range(256))
    case("256 properties", "canon", f"{head}{properties}}};\n", 0, f"{head}{properties}}};\n")


# ---- texts of 2 MB


def good_texts():
    """Good texts that leave room for 2 KB: of one literal, of many instances, of comments, and of separators."""
    room = LONG - 2048
    frame = 'instance of A\n{\n X = "%s";\n};\n'
    yield "a literal", frame % ("x" * (room - len(frame) + 2))
    one = 'instance of A\n{\n X = "' + "y" * 490 + '";\n};\n'
    yield "instances", one * min(4000, room // len(one))
    yield "a comment", "/*" + "c" * (room - 4) + "*/"
    yield "separators", " \n" * (room // 2)


def refusals():
    """Every refusal of a text, after 2 MB of a good one."""
    for kind, good in good_texts():
        at = len(good)
        instances = good.count("instance of")
        tails = [
            ("a byte that begins no character", b"\xff", f"Text {at}"),
            ("a cut character", b"\xe2\x82", f"Text {at}"),
            ("no declaration", "x", f"Syntax {at}"),
            ("a declaration that is cut short", "instance o", f"Syntax {at + 10}"),
            ("an open literal", 'instance of A { X = "ab', f"Syntax {at + 23}"),
            ("an open comment", "/* ab", f"Syntax {at + 5}"),
            ("a pragma", "#pragma", f"OutOfProfile {at} pragma"),
            ("qualifiers", "[a]", f"OutOfProfile {at} qualifiers"),
            ("a class", "class A {};", f"OutOfProfile {at} class"),
            ("a qualifier", "Qualifier A;", f"OutOfProfile {at} qualifier"),
            ("a character", "instance of A { X = 'a'; };", f"OutOfProfile {at + 20} character"),
            ("a floating-point constant", "instance of A { X = 1.5; };", f"OutOfProfile {at + 20} real"),
            ("an integer out of range", "instance of A { X = 18446744073709551616; };", f"NumberRange {at + 20}"),
            ("an identifier of 256 characters", f"instance of {'n' * 256} {{}};", f"TooMany {at + 12}"),
        ]
        for name, tail, line in tails:
            tail = tail.encode() if isinstance(tail, str) else tail
            case(f"{name} after {kind}", "canon", good.encode() + tail, 3, f"refused {line}\n")
            case(f"{name} after {kind}", "check", good.encode() + tail, 3, f"refused Part 0 {line}\n")
        rules = [
            ("NoHeader", "", "NoHeader"),
            ("a property twice", "instance of A{X=1;x=2;};", f"DuplicateProperty {instances} x"),
            ("two aliases", "instance of A as $a {};instance of A as $A {};", f"TwoAliases {instances} {instances + 1}"),
            ("two headers", HEADER + HEADER, f"TwoHeaders {instances} {instances + 1}"),
            ("an unknown alias", HEADER + "instance of A{X=$b;};", f"AliasUnknown {instances + 1}"),
            ("a bad id", HEADER + 'instance of A{ResourceID="A";};', f"BadResourceId {instances + 1}"),
            ("two ids", HEADER + log("[L]A") + log("[l]a"), f"DuplicateId {instances + 1} {instances + 2}"),
            ("a bad dependency", HEADER + log("[L]A", "DependsOn=1;"), f"BadDependsOn {instances + 1}"),
        ]
        for name, tail, line in rules:
            case(f"{name} after {kind}", "check", good + tail, 3, f"refused Part 0 {line}\n")
        tail = HEADER + log("[L]A", 'DependsOn="[L]Z";')
        case(f"an unknown id after {kind}", "check", good + tail, 3, f'refused DependsUnknown 0.{instances + 1} "[L]Z"\n')
        tail = HEADER + log("[L]A", 'DependsOn="[L]A";')
        case(f"a cycle after {kind}", "check", good + tail, 3, "refused Cycle 0\n")
    one = "instance of A\n{\n};\n"
    for count in (4096, 4097):
        case(f"{count} instances", "canon", one * count, 0, one * count)
    case("4098 instances", "canon", one * 4098, 3, f"refused TooMany {len(one) * 4097}\n")
    case("4096 resources and a header", "check", "".join(log(f"[L]{n}") for n in range(4096)) + HEADER, 0, "ok 4096\n")
    many = "instance of A{X={" + "1," * 4096
    for tail, line in (
        ('"', "TooMany"), ("$A", "TooMany"), ("-", "TooMany"), ("18446744073709551616};};", "NumberRange"), ("1.5};};", "OutOfProfile"), ("};};", "Syntax")):
        case(f"4096 elements and {tail[:2]}", "canon", many + tail, 3, f"refused {line} {len(many)}{' real' if line == 'OutOfProfile' else ''}\n")
    many = "instance of A{};" * 4097
    for tail, line in (("i", "TooMany"), ("Ix", "TooMany"), ("class", "OutOfProfile"), ("x", "Syntax")):
        case(f"4097 instances and {tail}", "canon", many + tail, 3, f"refused {line} {len(many)}{' class' if line == 'OutOfProfile' else ''}\n")
    case("8,388,609 bytes of no character", "canon", b"\xff" * (LIMIT + 1), 3, "refused TooLong\n")
    long = "\n" * (LIMIT - 40) + 'instance of A { X = 1.5; };'
    case("257 properties", "canon", "instance of A{" + "".join(f"P{n}=1;" for n in range(257)) + "};", 3,
         f"refused TooMany {14 + sum(len(f'P{n}=1;') for n in range(256))}\n")
    case("4097 elements", "canon", "instance of A{X={" + "1," * 4096 + "1};};", 3, f"refused TooMany {17 + 2 * 4096}\n")
    case("line ends up to the limit", "canon", long, 3, f"refused OutOfProfile {LIMIT - 20} real\n")
    for size, status, line in ((LIMIT, 0, ""), (LIMIT + 1, 3, "refused TooLong\n")):
        case(f"{size} spaces", "canon", " " * size, status, line)
    for size, line in ((LIMIT, "Part 0 NoHeader"), (LIMIT + 1, "TooLong")):
        for word in ("check", "order", "test"):
            case(f"{size} spaces", word, " " * size, 3, f"refused {line}\n")


def utf16():
    for mark, encoding in ((b"\xff\xfe", "utf-16-le"), (b"\xfe\xff", "utf-16-be")):
        room = LIMIT // 2 - 1
        value = "ä€x" * ((room - len(HEADER) - 200) // 3)
        text = f'instance of A\n{{\n X = "{value}";\n}};\n'
        whole = mark + text.encode(encoding)
        utf8 = text.encode()
        case(f"{encoding} of 8 MB", "canon", whole, 0, utf8)
        case(f"{encoding} of 8 MB, a byte more", "canon", whole + b"\n", 3, f"refused Text {len(whole)}\n")
        case(f"{encoding} of 8 MB, torn in its last character", "canon", whole[:-1], 3, f"refused Text {len(whole) - 2}\n")
        half = "\ud800".encode(encoding, "surrogatepass")
        case(f"{encoding} of 8 MB, half a pair at its end", "canon", whole + half, 3, f"refused Text {len(whole)}\n")
        document_ = mark + (f'instance of MSFT_LogResource{{ResourceID="[L]A";Message="{value}";}};' + HEADER).encode(encoding)
        case(f"{encoding} document of 8 MB", "test", document_, 1, 'test "[L]A" no\nresources 1 succeeded 0\nnot compliant 1\n')
        case(f"{encoding} document of 8 MB, a byte more", "check", document_ + b"\n", 3, f"refused Part 0 Text {len(document_)}\n")


def hostile():
    """Texts of 8 MB that must not take long."""
    head = "instance of A { X = "
    room = LIMIT - 1024
    case("an identifier of 8 MB", "canon", "instance of " + "n" * room + " {};", 3, "refused TooMany 12\n")
    case("an alias of 8 MB", "canon", "instance of A as $" + "n" * room + " {};", 3, "refused TooMany 18\n")
    case("a keyword that goes on for 8 MB", "canon", "instance" + "n" * room, 3, "refused Syntax 8\n")
    case("a number of 8 MB", "canon", head + "9" * room + "; };", 3, f"refused NumberRange {len(head)}\n")
    case("a binary number of 8 MB", "canon", head + "1" * room + "b; };", 3, f"refused NumberRange {len(head)}\n")
    case("a hexadecimal number of 8 MB", "canon", head + "0x" + "f" * room + "; };", 3, f"refused NumberRange {len(head)}\n")
    case("an open literal of 8 MB", "canon", head + '"' + "x" * room, 3, f"refused Syntax {len(head) + 1 + room}\n")
    case("an open literal of 4 MB of escapes", "canon", head + '"' + "\\n" * (room // 2), 3, f"refused Syntax {len(head) + 1 + room // 2 * 2}\n")
    case("2,800,000 literals", "canon", head + '"" ' * (room // 3), 3, f"refused Syntax {len(head) + room // 3 * 3}\n")
    case("an open comment of 8 MB", "canon", "/*" + "*" * room, 3, f"refused Syntax {2 + room}\n")
    case("a line comment of 8 MB", "canon", "//" + "/" * room, 0, "")
    case("2,000,000 comments", "canon", "/**/" * (room // 4) + "x", 3, f"refused Syntax {room // 4 * 4}\n")
    case("an id of 8 MB", "check", log("[L]" + "x" * (room // 1)) + HEADER, 3, "refused Part 0 BadResourceId 0\n")
    case("a dependency of 8 MB", "check", log("[L]A", 'DependsOn="' + "x" * (room - 512) + '";') + HEADER, 3, f'refused DependsUnknown 0.0 "{"x" * (room - 512)}"\n')
    segments = (room - 512) // 2
    deep = lambda id_, n, end="": f'instance of MSFT_FileDirectoryConfiguration{{ResourceID="[F]{id_}";DestinationPath="{"/a" * n}{end}";}};'
    tested = lambda ids, answer: "".join(f'test "[F]{id_}" {answer}\n' for id_ in ids) + f"resources {len(ids)} succeeded 0\nnot compliant {len(ids)}\n"
    case("a path of four million segments", "test", deep("A", segments) + HEADER, 1, tested("A", "no"))
    case("two paths of two million segments", "test", deep("A", segments // 2) + deep("B", segments // 2, "/b") + HEADER, 1, tested("AB", "no") + "overlapping\n")
    case("a path of four million segments that leads up", "test", deep("A", segments - 2, "/..") + HEADER, 1, tested("A", "fault BadPath"))
    entries = lambda id_, name, value: f'instance of MSFT_EnvironmentResource{{ResourceID="[E]{id_}";Name="{name}";Path=TRUE;Value="{value}";}};'
    answer = 'test "[E]A" no\nresources 1 succeeded 0\nnot compliant 1\n'
    numbers, size = [], 0
    while size < room - 1024:
        numbers.append(str(len(numbers)))
        size += len(numbers[-1]) + 1
    case("a Path value of different entries", "test", entries("A", "V", ";".join(numbers)) + HEADER, 1, answer)
    case("a Path value of two million entries", "test", entries("A", "V", "abc;" * 2_000_000) + HEADER, 1, answer)
    case("a Path value of four million entries", "test", entries("A", "V", "a;" * 4_000_000) + HEADER, 1, answer)


def generated():
    for count in [*range(1, 65), 4096]:
        depends = [[] for _ in range(count)]
        ids = [f"[Environment]R{count - 1 - r}" for r in range(count)]  # the resources fall from the last to the first
        for r in range(count):
            number = count - 1 - r
            if number:
                depends[r] = [count - 1 - (number - 1) // 2]
        order = order_of(depends)
        lines = f'generated {count}\nresources {count} succeeded {count}\ntests {2 * count} sets {count}\n'
        case(f"a repair of {count}", f"generate {count}", "", 0, lines + f'first "{ids[order[0]]}" last "{ids[order[-1]]}"\n')


# ---- starts, one after the other on one node


def valued(count, value, ids=None):
    """A document of that many variables without dependencies."""
    ids = ids or environment_ids(count)
    return "".join(f'instance of MSFT_EnvironmentResource{{ResourceID="{ids[r]}";Name="V{r}";Value="{value}";}};\n' for r in range(count)) + HEADER


def answered(ids, end, answers=("no", "yes")):
    """What a run prints in which each Test answers so: no without a Set, no with one after which it answers yes, or yes."""
    each = {("no",): 'test "{0}" no\n', ("yes",): 'test "{0}" yes\n', ("no", "yes"): 'test "{0}" no\nset "{0}" done\ntest "{0}" yes\n'}[tuple(answers)]
    succeeded = len(ids) if answers[-1] == "yes" else 0
    verdict = "compliant" if succeeded == len(ids) else f"not compliant {len(ids)}"
    return "".join(each.format(id_) for id_ in ids) + f"resources {len(ids)} succeeded {succeeded}\n{verdict}\n{end}\n"


def a_life(name, ids, first, second):
    """Drift under Monitor, a boot, a second document, a restore, and drift under AutoCorrect."""
    drifted = 1 if ids else 0
    case(f"{name}, the first", "push", first, 0, answered(ids, "end promoted"), PUSHED)
    case(f"{name}, the second", "+push", second, 0, answered(ids, "end promoted"), PUSHED)
    case(f"{name}, restored", "+restore", "", 0, answered(ids, "end promoted"), PUSHED)
    case(f"{name}, its drift", "+drift", "", 0, "")
    for word in ("consistency", "boot"):
        case(f"{name}, the drift seen", f"+{word}", "", drifted, answered(ids, "end noted", ["no"]), PUSHED)
    case(f"{name}, AutoCorrect", "+meta", 'instance of MSFT_DSCMetaConfiguration{ConfigurationMode="ApplyAndAutoCorrect";};', 0, "ok\n")
    case(f"{name}, the drift repaired", "+consistency", "", 0, answered(ids, "end noted"), PUSHED)
    case(f"{name}, its drift again", "+drift", "", 0, "")
    case(f"{name}, repaired by a boot", "+boot", "", 0, answered(ids, "end noted"), PUSHED)
    case(f"{name}, nothing to repair", "+boot", "", 0, answered(ids, "end noted", ["yes"]), PUSHED)


def starts():
    for count in (0, 1, 7, 40, 300):
        a_life(f"a life of {count}", environment_ids(count), valued(count, 1), valued(count, 2))
    for character in ("x", "€", "\U0001f600"):
        # each id has 256 bytes, and each version 64 characters
        ids = []
        for number in range(70):
            room = 256 - len(f"[E]{number}")
            fill = character * (room // len(character.encode()))
            ids.append(f"[E]{number}{fill}{'x' * (room - len(fill.encode()))}")
            assert len(ids[-1].encode()) == 256
        texts = [valued(70, value, ids=ids).replace('Version="2.0.0"', f'Version="{character * (63 + value)}"') for value in (1, 2)]
        a_life("ids of 256 bytes and a version of 64 characters", ids, *texts)
    for count in (2, 40, 300, 4096):
        # all are of one variable, so the first Set makes all of them right
        ids = environment_ids(count)
        text = "".join(f'instance of MSFT_EnvironmentResource{{ResourceID="{id_}";Name="V";Value="1";}};\n' for id_ in ids) + HEADER
        rest = "".join(f'test "{id_}" yes\n' for id_ in ids[1:])
        verdict = f"resources {count} succeeded {count}\ncompliant\noverlapping\n"
        case(f"{count} resources that overlap", "push", text, 0, f'test "{ids[0]}" no\nset "{ids[0]}" done\ntest "{ids[0]}" yes\n{rest}{verdict}end promoted\n', PUSHED)
        case(f"{count} resources that overlap, again", "+boot", "", 0, f'test "{ids[0]}" yes\n{rest}{verdict}end noted\n', PUSHED)


# ---- meta-configurations

META_LIMIT = 262_144  # the most bytes of a meta-configuration


def partial(name, depends=(), exclusive=()):
    texts = lambda values: "{" + ",".join(f'"{value}"' for value in values) + "}"
    depends = texts("[PartialConfiguration]" + other for other in depends)
    return (f'instance of MSFT_PartialConfiguration{{ResourceID="[PartialConfiguration]{name}";DependsOn={depends};'
            f"ExclusiveResources={texts(exclusive)};}};\n")


def metas():
    settings = "instance of MSFT_DSCMetaConfiguration{};\n"
    manager = lambda url, names: (f'instance of MSFT_WebDownloadManager{{ServerURL="{url}";ConfigurationNames={{'
                                  + ",".join(f'"{name}"' for name in names) + "};};\n")
    case("the settings alone", "meta", settings, 0, "ok\n")
    for count in range(1, 9):
        for length in (1, 255):
            names = [str(k) * length for k in range(count)]
            case(f"{count} names of {length} characters", "meta", settings + manager("http://s", names), 0, "ok\n")
            backwards = "".join(partial(name, names[k + 1:]) for k, name in enumerate(names))
            case(f"{count} partials with names of {length} characters", "meta", settings + backwards, 0, "ok\n")
            ring = "".join(partial(name, [names[(k + 1) % count]]) for k, name in enumerate(names))
            case(f"a cycle of {count} with names of {length} characters", "meta", settings + ring, 3,
                 "refused Parts" + "".join(f" {k}" for k in range(count)) + "\n")
    for resources in (0, 1, 7, 64, 256):
        texts = "".join(partial(str(k), [], [f"Module{j}\\\\Resource{j}" for j in range(resources)]) for k in range(8))
        case(f"8 partials with {resources} exclusive resources", "meta", settings + texts, 0, "ok\n")
    url = "http://" + "s" * (2_048 - 7 - 3)
    case("a URL of 2,048 bytes as it is written", "meta", settings + manager(url, ["Web"]), 0, "ok\n")
    case("one more byte of a URL", "meta", settings + manager(url + "s", ["Web"]), 3, "refused Meta BadUrl 1\n")
    fill = META_LIMIT - len(settings)
    case("a comment up to the limit", "meta", "//" + "x" * (fill - 3) + "\n" + settings, 0, "ok\n")
    case("one byte above the limit", "meta", "//" + "x" * (fill - 2) + "\n" + settings, 3, "refused TooLong\n")
    long_key = "k" * (META_LIMIT - 1_000)
    report = f'instance of MSFT_WebReportManager{{ServerURL="http://s";RegistrationKey="{long_key}";}};'
    case("a key of 261,144 characters", "meta", settings + report, 0, "ok\n")


# ---- configuration scripts

SCRIPT_LIMIT = 8_388_608  # the most bytes of a script
SCRIPT_SLOW = 5  # seconds that one may take


def written(resources, name="D"):
    """The document of a configuration of that name: its resources by kind, class, name and the lines of their properties."""
    last = f' ModuleName = "PSDesiredStateConfiguration";\n ModuleVersion = "1.0";\n ConfigurationName = "{name}";\n}};\n'
    head = f'instance of OMI_ConfigurationDocument\n{{\n Version = "2.0.0";\n Name = "{name}";\n}};\n'
    return "".join(f'instance of {class_}\n{{\n ResourceID = "[{kind}]{id_}";\n{lines}{last}' for kind, class_, id_, lines in resources) + head


def compiled(name, script, status, lines, node="a"):
    case(name, f"compile {node}", script, status, lines, SCRIPT_SLOW)


def logs(count, lines=""):
    return [("Log", "MSFT_LogResource", str(n), lines) for n in range(count)]


def scripts():
    """Scripts of 8 MB that must not take long, and what stands at their ends."""
    begin, end = "Configuration D { ", "}"
    node = begin + "Node a { "
    room = SCRIPT_LIMIT - 1024
    for count in (0, 1, 2, 40, 300, 4096):
        blocks = "".join(f"Log {n} {{ Message = 'it''s {n}' }}\n" for n in range(count))
        wanted = [("Log", "MSFT_LogResource", str(n), f' Message = "it\'s {n}";\n') for n in range(count)]
        blocks = blocks.replace("Log ", "Log '").replace(" { Message", "' { Message")
        compiled(f"a script of {count} resources", node + blocks + "} }", 0, written(wanted))
        others = "Node b { Log x { } } " * (room // 30)
        compiled(f"{count} resources after the blocks of other nodes", begin + others + "Node a { " + blocks + "} }", 0, written(wanted))
    # the limits of a document: the 4,098th instance begins with the header
    blocks = "".join(f"Log '{n}' {{ }}\n" for n in range(4097))
    text = written(logs(4097))
    compiled("4097 resources", node + blocks + "} }", 3, f"refused Compile Part 0 TooMany {text.rindex('instance of')}\n")
    compiled("100,000 resources", node + "Log A{}" * 100_000 + "} }", 3, "refused Compile Part 0 TooLong\n")
    compiled("two resources of one id", node + "Log A{} Log a{} } }", 3, "refused Compile Part 0 DuplicateId 0 1\n")
    digits = "9" * 1_000_000
    place = written([("Log", "MSFT_LogResource", "A", " X = 9;\n")]).index("9;")
    compiled("an integer of a million digits", node + f"Log A {{ X = {digits} }} }} }}", 3, f"refused Compile Part 0 NumberRange {place}\n")
    compiled("an integer of 8 MB", node + f"Log A {{ X = {'9' * room} }} }} }}", 3, f"refused Compile Part 0 NumberRange {place}\n")
    place = written([("Log", "MSFT_LogResource", "A", " X = 9;\n")]).index("X = 9")
    compiled("a name of 256 characters", node + f"Log A {{ {'n' * 256} = 9 }} }} }}", 3, f"refused Compile Part 0 TooMany {place}\n")
    quotes = 500_000
    text = written([("Log", "MSFT_LogResource", "A", f' X = "{chr(39) * quotes}";\n')])
    compiled("a text of 500,000 quotes", node + f"Log A {{ X = '{chr(39) * 2 * quotes}' }} }} }}", 0, text)
    text = written([("Log", "MSFT_LogResource", "A", ' X = "' + "ä\\n" * 200_000 + '";\n')])
    compiled("a text of 200,000 lines", node + 'Log A { X = "' + "ä\n" * 200_000 + '" } } }', 0, text)
    elements = ", ".join(["-5"] * 4096)
    text = written([("Log", "MSFT_LogResource", "A", f" X = {{{elements}}};\n")])
    compiled("an array of 4096", node + f"Log A {{ X = @({elements}) }} }} }}", 0, text)
    # many of one thing
    compiled("a million blocks", begin + "Node a{}" * 1_000_000 + end, 0, written([]))
    compiled("a million blocks of another node", begin + "Node a{}" * 1_000_000 + end, 3, "refused Compile NoNode\n", "b")
    compiled("a million names", begin + "Node " + "b," * 1_000_000 + "a {} }", 0, written([]))
    compiled("two million names, none of them it", begin + "Node " + "b," * 2_000_000 + "b {} }", 3, "refused Compile NoNode\n")
    compiled("two million semicolons", node + "Log A { " + ";" * 2_000_000 + "} } }", 0, written(logs(1)).replace("]0", "]A"))
    # what is no script, on what line
    lines = room // 2
    compiled("an open text of 8 MB", node + "Log '" + "x\n" * lines, 3, f"refused Compile Shape {lines}\n")
    compiled("an open text after lines", "\n" * lines + node + 'Log "' + "x" * (lines - 100), 3, f"refused Compile Shape {lines}\n")
    compiled("a comment of 8 MB", "#" + "x" * room, 3, "refused Compile Shape 0\n")
    compiled("four million comments", "#\n" * lines, 3, f"refused Compile Shape {lines}\n")
    compiled("nested braces", begin + "\n" + "{\n" * lines, 3, "refused Compile Shape 1\n")
    compiled("nested arrays", node + "Log A { X = " + "@(" * lines, 3, "refused Compile Shape 0\n")
    compiled("8 MB of spaces", " " * SCRIPT_LIMIT, 3, "refused Compile Shape 0\n")
    compiled("8 MB of line feeds", "\n" * SCRIPT_LIMIT, 3, f"refused Compile Shape {SCRIPT_LIMIT}\n")
    compiled("one byte more", " " * (SCRIPT_LIMIT + 1), 3, "refused TooLong\n")
    compiled("a word of 8 MB", "C" * room, 3, "refused Compile Shape 0\n")
    compiled("something after the script", begin + end + "\n" * lines + "x", 3, f"refused Compile Shape {lines}\n")
    good = begin + "Node a { Log A { }\n" + "# \n" * (room // 3)
    feeds = good.count("\n")
    compiled("an unknown kind after 8 MB", good + "Service S { } } }", 3, f"refused Compile UnknownKind {feeds}\n")
    compiled("a reserved property after 8 MB", good + "Log S { ResourceID = 1 } } }", 3, f"refused Compile Reserved {feeds}\n")
    bad = good.encode() + b"\xff"
    compiled("no character after 8 MB", bad, 3, f"refused Compile NotText {len(bad) - 1}\n")


# ---- stores in which documents stand once, under their digests

NO_FILES = """registered no
mode ApplyAndMonitor Push
frequencies 15 30
reboot policy no
after ContinueConfiguration
overwrite no
server none
reboot no
job 1
"""
AGENT = 16
INIT = b"\x01" + AGENT.to_bytes(16, "big")
FORMAT = b"\x0f\x02"


def of_size(size, mark="x"):
    """A document without resources that has so many bytes, the last of them in a comment."""
    return (HEADER + "//" + mark * (size - len(HEADER) - 2)).encode()


def blob(content, digest=None):
    return b"\x10" + (digest or hashlib.sha256(content).digest()) + content


def staged(content):
    """A Stage of one document, by its digest: a count, an empty name, and the digest."""
    return b"\x11\x01\x00\x00" + hashlib.sha256(content).digest()


def store_of(bodies):
    return b"DSCSTOR1" + b"".join(b"\xa5" + len(body).to_bytes(4, "big") + body for body in bodies) + b"\x00"


def shown(content):
    """What get prints of a node on which this document was staged alone."""
    digest = hashlib.sha256(content).hexdigest().upper()
    return f'agent 00000000-0000-0000-0000-0000000000{AGENT:02x}\n{NO_FILES}pending "" {digest}\ncurrent -\nprevious -\n'


def stored():
    """Stores of one document in many sizes, of many Stages and of many documents, and what is pushed on such a store."""
    front = [FORMAT, INIT]
    for size in (len(HEADER) + 2, 100, 4_096, 65_535, 65_536, 65_537, 1_000_000, LONG, LIMIT - 1, LIMIT):
        content = of_size(size)
        case(f"a stored document of {size} bytes", "=get", store_of([*front, blob(content), staged(content)]), 0, shown(content))
        case(f"a push after a stored document of {size} bytes", "+push", HEADER, 0, answered([], "end promoted"), PUSHED)
        before = store_of([*front])[:-1]
        wrong = store_of([*front, blob(content, b"\x00" * 32), staged(content)])
        case(f"a stored document of {size} bytes under another digest", "=get", wrong, 5, f"refused NotAStore {len(before) + 5}\n")
    content = of_size(LIMIT + 1)
    place = len(store_of([*front, blob(content)])) - 1 + 5
    case("a stored document that is one byte too long", "=get", store_of([*front, blob(content), staged(content)]), 5, f"refused NotAStore {place}\n")
    a, b = of_size(LONG), of_size(LONG, "y")
    case("a document that was staged 500 times", "=get", store_of([*front, blob(a)] + [staged(a)] * 500), 0, shown(a))
    case("two documents that were staged in turns, 100 times", "=get", store_of([*front, blob(a), blob(b)] + [staged(a), staged(b)] * 100), 0, shown(b), PUSHED)
    many = [of_size(100, chr(97 + n % 26))[:-8] + b"%08d" % n for n in range(5_000)]
    bodies = [body for content in many for body in (blob(content), staged(content))]
    case("5,000 documents, each staged once", "=get", store_of([*front, *bodies]), 0, shown(many[-1]), PUSHED)


documents()
starts()
metas()
cycles()
unknown_ids()
long_values()
refusals()
utf16()
hostile()
generated()
scripts()
stored()
cases.close()
