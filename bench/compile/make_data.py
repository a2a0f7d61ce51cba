"""Writes a script of 8 MB that names this many machines: make_data.py FILE MACHINES. Each has as many resources as there is space for, at
most 4,096."""
import sys

LIMIT = 8_388_608
path, machines = sys.argv[1], int(sys.argv[2])
room = LIMIT // machines - 200
blocks = []
for machine in range(machines):
    resources, size, number = [], 0, 0
    while size < room and number < 4096:
        resources.append(f"  File F{number} {{ DestinationPath = '/srv/site/{machine}/{number}'; Contents = 'machine''s {number}'; DependsOn = @() }}\n")
        size += len(resources[-1])
        number += 1
    blocks.append(f" Node 'web{machine}', \"spare{machine}\" {{\n" + "".join(resources[:-1]) + " }\n")
text = "Configuration Site {\n" + "".join(blocks) + "}\n"
assert len(text) <= LIMIT, len(text)
with open(path, "w", encoding="utf-8") as file:
    file.write(text)
