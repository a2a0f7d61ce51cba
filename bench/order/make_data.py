#!/usr/bin/env python3
"""make_data.py FOLDER COUNT: for each of four shapes of dependencies between COUNT resources a document SHAPE.mof, the
pairs SHAPE.edges for tsort, and SHAPE.order, the ids as `order` is to print them.

chain: each depends on the one before. backwards: the same, the last first in the text. tree: number i depends on the
whole part of (i - 1) / 2, the last first. dense: each depends on up to six earlier ones, the last first."""
import heapq
import os
import sys

folder, count = sys.argv[1], int(sys.argv[2])


def earlier(i):
    return [i - 1 - 7 * k for k in range(6) if i - 1 - 7 * k >= 0]


SHAPES = {
    "chain": (range(count), lambda i: [i - 1] if i else []),
    "backwards": (range(count - 1, -1, -1), lambda i: [i - 1] if i else []),
    "tree": (range(count - 1, -1, -1), lambda i: [(i - 1) // 2] if i else []),
    "dense": (range(count - 1, -1, -1), earlier),
}


def name(i):
    return '"[Log]R%05d"' % i


def instance(i, depends):
    lines = ["instance of MSFT_LogResource as $Log%d" % i, "{", "ResourceID = %s;" % name(i), ' Message = "message %d";' % i,
             ' SourceInfo = "C:\\\\demo\\\\site.ps1::%d::5::Log";' % (3 + 6 * i), ' ModuleName = "PSDesiredStateConfiguration";',
             ' ModuleVersion = "1.0";']
    if depends:
        lines.append(" DependsOn = {%s};" % ", ".join(map(name, depends)))
    return "\n".join(lines + [' ConfigurationName = "Demo";', "};", ""])


def order(text, depends):
    """At each position the resource that stands first in the text among those whose dependencies all stand."""
    place = {i: k for k, i in enumerate(text)}
    left = {i: len(depends(i)) for i in text}
    behind = {i: [] for i in text}
    for i in text:
        for d in depends(i):
            behind[d].append(i)
    ready = [place[i] for i in text if not left[i]]
    heapq.heapify(ready)
    while ready:
        i = text[heapq.heappop(ready)]
        yield i
        for j in behind[i]:
            left[j] -= 1
            if not left[j]:
                heapq.heappush(ready, place[j])


def put(file, lines):
    with open(os.path.join(folder, file), "w") as f:
        f.writelines(lines)


for shape, (text, depends) in SHAPES.items():
    header = 'instance of OMI_ConfigurationDocument\n{\n Version = "2.0.0";\n};\n'
    put(shape + ".mof", [instance(i, depends(i)) for i in text] + [header])
    put(shape + ".edges", ["%d %d\n" % (d, i) for i in text for d in (depends(i) or [i])])
    put(shape + ".order", [name(i) + "\n" for i in order(list(text), depends)])
