#!/usr/bin/env python3
"""icescan-uncompress FOLDER COPY: a copy of a table's metadata folder in which nothing is compressed.

FOLDER is a metadata folder, and is copied to COPY, which must not be there; or it is a table's folder, and then its folder
`metadata` is copied to COPY/metadata. Each Avro container below it is written anew with codec `null`: the same objects, bytes
and blocks, the same metadata but the codec. Codecs are `deflate`, `bzip2` and `xz`, `snappy` where Python has the library
snappy or cramjam (Debian: python3-snappy), and `zstandard` where it has zstandard (Debian: python3-zstandard) or is 3.14.
Metadata that is compressed by gzip is written as its text, with a name that has no `.gz`, and both names are told. Every other
file is copied as it is. A container that can't be uncompressed is copied as it is and named on standard error, and the status
is then 1. Lengths that a manifest list says of its manifests are those of the compressed files; icescan does not use them.
"""
import bz2
import gzip
import lzma
import os
import sys
import zlib

MAGIC = b"Obj\x01"
GZIP = b"\x1f\x8b"


class NotAvro(Exception):
    """The file is not a whole Avro container."""


class NoLibrary(Exception):
    """This Python has no library for the codec."""


def unsnapped(block):
    """A block of codec snappy: four bytes at its end are a checksum of the bytes that it stands for."""
    try:
        from snappy import uncompress
    except ImportError:
        try:
            from cramjam.snappy import decompress_raw as uncompress
        except ImportError:
            raise NoLibrary from None
    plain = bytes(uncompress(block[:-4]))
    if zlib.crc32(plain) != int.from_bytes(block[-4:], "big"):
        raise NotAvro
    return plain


def unzstandard(block):
    try:
        from zstandard import ZstdDecompressor
    except ImportError:
        try:
            from compression.zstd import decompress
        except ImportError:
            raise NoLibrary from None
        return decompress(block)
    return ZstdDecompressor().decompressobj().decompress(block)


CODECS = {
    b"deflate": lambda block: zlib.decompress(block, -15),
    b"bzip2": bz2.decompress,
    b"xz": lzma.decompress,
    b"snappy": unsnapped,
    b"zstandard": unzstandard,
}


def read_number(data, at):
    """The zigzag number at a place, and the place behind it."""
    value = shift = 0
    while True:
        if at >= len(data) or shift > 63:
            raise NotAvro
        byte = data[at]
        at += 1
        value |= (byte & 127) << shift
        shift += 7
        if byte < 128:
            return (value >> 1) ^ -(value & 1), at


def read_run(data, at):
    """The bytes that a length stands before, and the place behind them."""
    size, at = read_number(data, at)
    if size < 0 or at + size > len(data):
        raise NotAvro
    return data[at:at + size], at + size


def written_number(value):
    value = (value << 1) ^ (value >> 63)
    out = bytearray()
    while value > 127:
        out.append(value & 127 | 128)
        value >>= 7
    out.append(value)
    return bytes(out)


def written_run(data):
    return written_number(len(data)) + data


def read_header(data):
    """The metadata by key, in the order of the file, the marker, and the place of the first block."""
    metadata, at = {}, 4
    while True:
        count, at = read_number(data, at)
        if count == 0:
            break
        if count < 0:
            _, at = read_number(data, at)
        for _ in range(abs(count)):
            key, at = read_run(data, at)
            metadata[key], at = read_run(data, at)
    if at + 16 > len(data):
        raise NotAvro
    return metadata, data[at:at + 16], at + 16


def uncompressed(data):
    """The container with codec null, and the codec's name where it is none that is undone."""
    metadata, marker, at = read_header(data)
    codec = metadata.get(b"avro.codec", b"null")
    if codec == b"null":
        return data, None
    if codec not in CODECS:
        return data, codec
    metadata[b"avro.codec"] = b"null"
    out = [MAGIC, written_number(len(metadata))]
    out += [written_run(key) + written_run(value) for key, value in metadata.items()]
    out += [written_number(0), marker]
    while at < len(data):
        count, at = read_number(data, at)
        block, at = read_run(data, at)
        if data[at:at + 16] != marker:
            raise NotAvro
        at += 16
        out += [written_number(count), written_run(CODECS[codec](block)), marker]
    return b"".join(out), None


def copied(data, path):
    """What a file's copy holds, and whether it is without compression; what stays compressed is named."""
    try:
        if data.startswith(GZIP):
            return gzip.decompress(data), True
        if not data.startswith(MAGIC):
            return data, True
        plain, codec = uncompressed(data)
        why = codec and f"of codec {codec.decode(errors='replace')}"
    except NoLibrary:
        plain, why = data, f"this Python has no library for codec {read_header(data)[0][b'avro.codec'].decode()}"
    except Exception as e:  # the libraries have errors of their own
        plain, why = data, f"can't be read ({type(e).__name__})"
    if why:
        print(f"{path}: left as it is, {why}", file=sys.stderr)
    return plain, why is None


def copied_name(name, data):
    """The name of a copy: that of metadata that was compressed has no `.gz`."""
    return name.replace(".gz", "") if data.startswith(GZIP) and ".metadata.json" in name else name


def main():
    if len(sys.argv) != 3:
        sys.exit(__doc__.strip())
    folder, copy = sys.argv[1:]
    if not os.path.isdir(folder):
        sys.exit(f"{folder} is no folder")
    if os.path.isdir(os.path.join(folder, "metadata")):
        folder, copy = os.path.join(folder, "metadata"), os.path.join(copy, "metadata")
    if os.path.exists(copy):
        sys.exit(f"{copy} is there already")
    done = True
    for root, _, names in os.walk(folder):
        target = os.path.join(copy, os.path.relpath(root, folder))
        os.makedirs(target)
        for name in sorted(names):
            with open(os.path.join(root, name), "rb") as file:
                data = file.read()
            plain, well = copied(data, os.path.join(root, name))
            done = well and done
            other = copied_name(name, data) if well else name
            if other != name and other in names:
                print(f"{os.path.join(root, name)}: not copied, {other} is there too", file=sys.stderr)
                done = False
                continue
            if other != name:
                print(f"{os.path.join(root, name)}: its text is {os.path.normpath(os.path.join(target, other))}")
            with open(os.path.join(target, other), "xb") as file:
                file.write(plain)
    sys.exit(0 if done else 1)


if __name__ == "__main__":
    main()
