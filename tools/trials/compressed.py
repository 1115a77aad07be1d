#!/usr/bin/env python3
"""compressed.py: tries `uncompress.py` on a metadata folder with a file of each codec, and says what it made of each.

Each container has to become, byte for byte, the one that was never compressed; metadata compressed by gzip its text, without
`.gz` in its name. Codecs for which this Python has no library have to be named, with status 1: so that all are tried, run this
by a Python that has snappy and zstandard (Debian: /usr/bin/python3 with python3-snappy and python3-zstandard).
"""
import bz2
import gzip
import json
import lzma
import os
import subprocess
import sys
import tempfile
import zlib

sys.path.insert(0, os.path.dirname(os.path.abspath(__file__)))
from refusals import SYNC, entry, entry_schema, number, table, text  # noqa: E402

TOOL = os.path.join(os.path.dirname(os.path.dirname(os.path.abspath(__file__))), "uncompress.py")


def deflated(body):
    by = zlib.compressobj(wbits=-15)
    return by.compress(body) + by.flush()


CODECS = {"null": lambda body: body, "deflate": deflated, "bzip2": bz2.compress, "xz": lzma.compress}
try:
    import snappy
    CODECS["snappy"] = lambda body: snappy.compress(body) + zlib.crc32(body).to_bytes(4, "big")
except ImportError:
    pass
try:
    import zstandard
    CODECS["zstandard"] = lambda body: zstandard.ZstdCompressor().compress(body)
except ImportError:
    pass


def container(codec, packed):
    """A manifest of two blocks."""
    schema = json.dumps(entry_schema())
    head = b"Obj\x01" + number(2) + text("avro.schema") + text(schema) + text("avro.codec") + text(codec) + number(0) + SYNC
    for path in ("mem://t/a.parquet", "mem://t/b.parquet"):
        body = packed(entry(path))
        head += number(1) + number(len(body)) + body + SYNC
    return head


def run(folder, copy):
    done = subprocess.run([sys.executable, TOOL, folder, copy], capture_output=True, text=True)
    return done.returncode, done.stdout, done.stderr


def read(*names):
    with open(os.path.join(*names), "rb") as file:
        return file.read()


def main():
    bad = 0
    with tempfile.TemporaryDirectory() as top:
        folder = os.path.join(top, "t", "metadata")
        os.makedirs(folder)
        files = {f"{codec}.avro": container(codec, packed) for codec, packed in CODECS.items()}
        files |= {"v1.gz.metadata.json": gzip.compress(table()), "v2.metadata.json.gz": gzip.compress(table()),
                  "v3.metadata.json": table(), "version-hint.text": b"3"}
        for name, data in files.items():
            with open(os.path.join(folder, name), "wb") as out:
                out.write(data)
        status, told, errors = run(os.path.join(top, "t"), os.path.join(top, "copy"))
        print(f"status {status}\n{told}{errors}", end="")
        plain = container("null", CODECS["null"])
        wanted = {f"{codec}.avro": plain for codec in CODECS}
        wanted |= {"v1.metadata.json": table(), "v2.metadata.json": table(), "v3.metadata.json": table(), "version-hint.text": b"3"}
        found = {name: read(top, "copy", "metadata", name) for name in os.listdir(os.path.join(top, "copy", "metadata"))}
        for name in sorted(wanted.keys() | found.keys()):
            if wanted.get(name) != found.get(name):
                print(f"FAULT: {name} is not what is wanted")
                bad += 1
        bad += (status, errors) != (0, "")
        with open(os.path.join(folder, "odd.avro"), "wb") as out:
            out.write(container("odd", CODECS["null"]))
        status, told, errors = run(folder, os.path.join(top, "other"))
        print(f"status {status}\n{errors}", end="")
        bad += status != 1 or "odd.avro: left as it is, of codec odd" not in errors
    print(f"codecs {' '.join(CODECS)}: {bad} not as they should be")
    return bool(bad)


if __name__ == "__main__":
    sys.exit(main())
