#!/usr/bin/env python3
"""make_data.py FOLDER COUNT BYTES: a document of COUNT environment resources and of at most BYTES bytes, and a host folder on
which they hold. 0 bytes leave the values short."""
import os
import sys

folder, count, size = sys.argv[1], int(sys.argv[2]), int(sys.argv[3])
variables = os.path.join(folder, "host", "env")
os.makedirs(variables, exist_ok=True)
HEADER = 'instance of OMI_ConfigurationDocument {\n Version = "2.0.0";\n};\n'
RESOURCE = 'instance of MSFT_EnvironmentResource {\n ResourceID = "[Environment]R%d";\n Name = "%s";\n Value = "%s";\n};\n'


def name_of(place):
    return "VARIABLE_%d" % place


def value_of(place, padding):
    return "value %d of a variable" % place + "." * padding


def text_of(padding):
    return "".join(RESOURCE % (i, name_of(i), value_of(i, padding)) for i in range(count)) + HEADER


padding = max(0, (size - len(text_of(0))) // count)
with open(os.path.join(folder, "document.mof"), "w") as document:
    document.write(text_of(padding))
for place in range(count):
    with open(os.path.join(variables, name_of(place).lower().encode().hex().upper()), "w") as file:
        file.write(value_of(place, padding))
