#!/usr/bin/env python3
"""make_data.py FOLDER COUNT: a document of COUNT environment resources, and a host folder on which they hold."""
import os
import sys

folder, count = sys.argv[1], int(sys.argv[2])
variables = os.path.join(folder, "host", "env")
os.makedirs(variables, exist_ok=True)
with open(os.path.join(folder, "document.mof"), "w") as document:
    for i in range(count):
        name, value = "VARIABLE_%d" % i, "value %d of a variable" % i
        document.write('instance of MSFT_EnvironmentResource {\n ResourceID = "[Environment]R%d";\n'
                       ' Name = "%s";\n Value = "%s";\n};\n' % (i, name, value))
        with open(os.path.join(variables, name.lower().encode().hex().upper()), "w") as file:
            file.write(value)
    document.write('instance of OMI_ConfigurationDocument {\n Version = "2.0.0";\n};\n')
