"""Writes a script of that many starts of a node over a document of 300 resources, each of which is stopped: make_data.py FILE STARTS. The first
makes the node; the others push the document, and stop in a call that comes later from start to start."""
import sys

path, starts = sys.argv[1], int(sys.argv[2])
resource = 'instance of MSFT_EnvironmentResource{{ResourceID="[Environment]R{0}";Name="V{0}";Value="value {0}";}};\n'
document = "".join(resource.format(number) for number in range(300)) + 'instance of OMI_ConfigurationDocument{Version="2.0.0";};\n'
lines = ["doc d\n", document, ".\n", "start init 00000000-0000-0000-0000-000000000010\n"]
lines += [f"start push < d stop {1 + 7 * number % 900} {number % 3}\n" for number in range(starts - 1)]
with open(path, "w", encoding="utf-8") as file:
    file.write("".join(lines))
