"""Makes 10,000 folders, one in the other, under names of UTF-8 and of other bytes, for checks/folder. The argument is the first folder."""
import os
import sys

os.makedirs(sys.argv[1])
os.chdir(sys.argv[1])
for number in range(10000):
    name = b"\xfe" if number % 2 else b"b"
    os.mkdir(name)
    os.chdir(name)
open("last", "w").close()
