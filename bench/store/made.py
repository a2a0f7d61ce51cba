"""Writes the file of a node's store of format 2: made.py FILE LISTS STAGES SIZE. Each of the lists has two parts of SIZE bytes, a header and a
comment; they are staged in turns, STAGES times in all. And the parts, each as a document of its own: FILE.0, FILE.1, .."""
import hashlib
import struct
import sys

HEADER = b'instance of OMI_ConfigurationDocument\n{\n Version = "2.0.0";\n};\n'


def cell(body):
    return b'\xA5' + struct.pack('>I', len(body)) + body


def part(number, size):
    return HEADER + b'/*' + bytes([97 + number]) * (size - len(HEADER) - 4) + b'*/'


def main():
    file, lists, stages, size = sys.argv[1], *map(int, sys.argv[2:])
    parts = [part(number, size) for number in range(2 * lists)]
    for number, text in enumerate(parts):
        with open(f'{file}.{number}', 'wb') as it:
            it.write(text)
    digests = [hashlib.sha256(text).digest() for text in parts]
    body = lambda at: b'\x11\x02' + b''.join(struct.pack('>H', 1) + name + digests[2 * at + number] for number, name in enumerate((b'a', b'b')))
    cells = [cell(b'\x0f\x02'), cell(b'\x01' + bytes(15) + b'\x10')]
    cells += [cell(b'\x10' + digest + text) for digest, text in zip(digests, parts)]
    bodies = [cell(body(at)) for at in range(lists)]
    with open(file, 'wb') as it:
        it.write(b'DSCSTOR1' + b''.join(cells) + b''.join(bodies[number % lists] for number in range(stages)) + b'\0')


main()
