#!/usr/bin/env python3
"""build_wheel.py LIBRARY FOLDER: makes a wheel of the package in `python/` with the shared library LIBRARY in it, puts
it into FOLDER, and prints its path. `tools/build_c --python FOLDER ..` calls it.

A wheel is a zip file of the package and of a folder that describes it; it is for Linux on x86-64 with the C library of
the system on which LIBRARY was made, or a later one. The same files make the same wheel.
"""
import base64
import hashlib
import os
import re
import sys
import zipfile

PYTHON = os.path.join(os.path.dirname(os.path.dirname(os.path.abspath(__file__))), "python")
TAG = "py3-none-linux_x86_64"
WHEEL = f"Wheel-Version: 1.0\nGenerator: build_wheel.py\nRoot-Is-Purelib: false\nTag: {TAG}\n"
METADATA = """Metadata-Version: 2.1
Name: icescan
Version: {version}
Summary: Which files a scan of an Apache Iceberg table has to read
Requires-Python: >=3.8
Provides-Extra: arrow
Requires-Dist: pyarrow>=7; extra == "arrow"
Description-Content-Type: text/markdown

{readme}"""


def read(path):
    with open(path, "rb") as file:
        return file.read()


def files_of(library):
    """The files of the wheel, by their names in it, and the version of the package."""
    names = sorted(it for it in os.listdir(f"{PYTHON}/icescan") if it.endswith((".py", ".typed")))
    files = {f"icescan/{name}": read(f"{PYTHON}/icescan/{name}") for name in names}
    version = re.search(r'^__version__ = "(.*)"$', files["icescan/__init__.py"].decode(), re.M).group(1)
    about = METADATA.format(version=version, readme=read(f"{PYTHON}/README.md").decode())
    files["icescan/libicescan.so"] = read(library)
    files[f"icescan-{version}.dist-info/METADATA"] = about.encode()
    files[f"icescan-{version}.dist-info/WHEEL"] = WHEEL.encode()
    return files, version


def record(files, name):
    """The line of each file with its checksum, and that of this list itself."""
    for path, data in files.items():
        digest = base64.urlsafe_b64encode(hashlib.sha256(data).digest()).rstrip(b"=").decode()
        yield f"{path},sha256={digest},{len(data)}\n"
    yield f"{name},,\n"


def main():
    if len(sys.argv) != 3:
        sys.exit(__doc__)
    library, folder = sys.argv[1:]
    files, version = files_of(library)
    name = f"icescan-{version}.dist-info/RECORD"
    files[name] = "".join(record(files, name)).encode()
    os.makedirs(folder, exist_ok=True)
    wheel = os.path.join(folder, f"icescan-{version}-{TAG}.whl")
    with zipfile.ZipFile(wheel, "w") as out:
        for path, data in files.items():
            entry = zipfile.ZipInfo(path)
            entry.compress_type, entry.external_attr = zipfile.ZIP_DEFLATED, 0o100644 << 16
            out.writestr(entry, data)
    print(wheel)


if __name__ == "__main__":
    main()
