"""no_stack_header.py FILE: takes the PT_GNU_STACK out of a file's program headers (their type becomes PT_NULL)."""
import struct
import sys

PT_GNU_STACK = 0x6474E551

with open(sys.argv[1], "r+b") as file:
    data = file.read()
    offset, count = struct.unpack_from("<I", data, 28)[0], struct.unpack_from("<H", data, 44)[0]
    for place in range(offset, offset + 32 * count, 32):
        if struct.unpack_from("<I", data, place)[0] == PT_GNU_STACK:
            file.seek(place)
            file.write(bytes(4))
