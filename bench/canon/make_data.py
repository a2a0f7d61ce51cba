#!/usr/bin/env python3
"""make_data.py FILE COUNT: a document of COUNT instances, with comments, aliases, escapes, arrays and joined literals;
of 4,096 instances it is about 2 MB."""
import sys

file, count = sys.argv[1], int(sys.argv[2])
line = "0123456789 abcdefghijklmnop " * 2
with open(file, "w") as document:
    document.write("/* a document of %d instances */\n\n" % count)
    for i in range(count - 1):
        document.write(
            'instance of MSFT_FileDirectoryConfiguration as $File%d\n{\n'
            'ResourceID = "[File]R%05d";\n'
            ' Type = "File";\n Ensure = "Present"; // as it is to be\n'
            ' Contents = "value %d of the file\\r\\n" "%send \\\\q\\x41";\n'
            ' DestinationPath = "C:\\\\folder\\\\file_%d";\n'
            ' MatchSource = true;\n Size = 0x%X;\n Checks = {%d, -%d, NULL, $File%d};\n'
            ' SourceInfo = "C:\\\\demo\\\\site.ps1::%d::5::File";\n ModuleName = "PSDesiredStateConfiguration";\n'
            ' ConfigurationName = "Demo";\n};\n' % (i, i, i, line, i, i, i, i, i, 3 + 6 * i))
    document.write('instance of OMI_ConfigurationDocument\n{\n Version = "2.0.0";\n};\n')
