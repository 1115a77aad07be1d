#!/usr/bin/env python3
"""bundle.py FOLDER PREFIX LIST: a bundle for `icescan list-plan --bundle` of the Avro files below FOLDER, on standard output.

FOLDER holds the files whose paths begin with PREFIX, each at the rest of its path. LIST is the path of a manifest list, and
the bundle's first line. Then come the other files that end in `.avro`, by path.
"""
import os
import sys


def escaped(path):
    """The bytes of a path, 00 to 20, 5c and 7f as `\\x` and two digits."""
    out = bytearray()
    for byte in path.encode():
        out += b"\\x%02x" % byte if byte <= 0x20 or byte in (0x5C, 0x7F) else bytes([byte])
    return bytes(out)


def main():
    if len(sys.argv) != 4:
        sys.exit(__doc__.split("\n", 1)[0])
    folder, prefix, manifest_list = sys.argv[1:]
    files = {}
    for root, _, names in os.walk(folder):
        for name in names:
            if name.endswith(".avro"):
                place = os.path.join(root, name)
                files[prefix.rstrip("/") + "/" + os.path.relpath(place, folder)] = place
    if manifest_list not in files:
        sys.exit(f"{manifest_list} is not below {folder}")
    for path in [manifest_list, *sorted(path for path in files if path != manifest_list)]:
        with open(files[path], "rb") as file:
            sys.stdout.buffer.write(escaped(path) + b" " + file.read().hex().encode() + b"\n")


if __name__ == "__main__":
    main()
