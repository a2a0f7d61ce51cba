#!/usr/bin/env python3
"""make_data.py FOLDER COUNT: a document of COUNT File resources, and a host folder on which they hold."""
import os
import sys

folder, count = sys.argv[1], int(sys.argv[2])
files = os.path.join(folder, "host", "root", "f")
os.makedirs(files, exist_ok=True)
with open(os.path.join(folder, "document.mof"), "w") as document:
    for i in range(count):
        name, contents = "file_%05d.txt" % i, "contents %d of a file, as they are to be" % i
        document.write('instance of MSFT_FileDirectoryConfiguration {\n ResourceID = "[File]R%d";\n'
                       ' DestinationPath = "/f/%s";\n Ensure = "Present";\n Contents = "%s";\n};\n' % (i, name, contents))
        with open(os.path.join(files, name), "w") as file:
            file.write(contents)
    document.write('instance of OMI_ConfigurationDocument {\n Version = "2.0.0";\n};\n')
