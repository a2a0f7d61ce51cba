#!/usr/bin/env python3
"""make_data.py FOLDER COUNT: for each of three shapes of dependencies between COUNT resources a document SHAPE.mof, the same resources
as eight parts SHAPE.0.mof to SHAPE.7.mof, each with a header of its own, and SHAPE.order, the ids as `order` is to print them.

Part r has the numbers with the remainder r by 8, the last first; the document has those of part 0, of part 1 and so on. backwards: each
depends on the one before. tree: number i depends on the whole part of (i - 1) / 2. dense: each depends on up to six earlier ones. So most
dependencies are in another part."""
import heapq
import os
import sys

folder, count = sys.argv[1], int(sys.argv[2])
PARTS = 8
HEADER = 'instance of OMI_ConfigurationDocument\n{\n Version = "2.0.0";\n};\n'
SHAPES = {
    "backwards": lambda i: [i - 1] if i else [],
    "tree": lambda i: [(i - 1) // 2] if i else [],
    "dense": lambda i: [i - 1 - 7 * k for k in range(6) if i - 1 - 7 * k >= 0],
}


def name(i):
    return '"[Log]R%05d"' % i


def instance(i, depends):
    lines = ["instance of MSFT_LogResource as $Log%d" % i, "{", "ResourceID = %s;" % name(i), ' Message = "message %d";' % i,
             ' SourceInfo = "C:\\\\demo\\\\site.ps1::%d::5::Log";' % (3 + 6 * i), ' ModuleName = "PSDesiredStateConfiguration";',
             ' ModuleVersion = "1.0";']
    if depends:
        lines.append(" DependsOn = {%s};" % ", ".join(map(name, depends)))
    return "\n".join(lines + [' ConfigurationName = "Demo";', "};", ""])


def order(text, depends):
    """At each position the resource that stands first in the text among those whose dependencies all stand."""
    place = {i: k for k, i in enumerate(text)}
    left = {i: len(depends(i)) for i in text}
    behind = {i: [] for i in text}
    for i in text:
        for d in depends(i):
            behind[d].append(i)
    ready = [place[i] for i in text if not left[i]]
    heapq.heapify(ready)
    while ready:
        i = text[heapq.heappop(ready)]
        yield i
        for j in behind[i]:
            left[j] -= 1
            if not left[j]:
                heapq.heappush(ready, place[j])


def put(file, lines):
    with open(os.path.join(folder, file), "w") as f:
        f.writelines(lines)


parts = [range(part, count, PARTS)[::-1] for part in range(PARTS)]
text = [i for part in parts for i in part]
for shape, depends in SHAPES.items():
    put(shape + ".mof", [instance(i, depends(i)) for i in text] + [HEADER])
    for number, part in enumerate(parts):
        put("%s.%d.mof" % (shape, number), [instance(i, depends(i)) for i in part] + [HEADER])
    put(shape + ".order", [name(i) + "\n" for i in order(text, depends)])
