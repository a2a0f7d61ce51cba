#!/usr/bin/env python3
"""make_data.py FILE COUNT: a file of COUNT bytes in no order, the same ones each time."""
import random
import sys

numbers, left = random.Random(64), int(sys.argv[2])
with open(sys.argv[1], "wb") as file:
    while left > 0:
        piece = min(left, 1 << 20)
        file.write(numbers.randbytes(piece))
        left -= piece
