"""Plans a table by the package in python/, and prints the text that `icescan plan` prints:

    engine.py FOLDER PREFIX METADATA [FILTER [NAME]]

FOLDER stands for the front PREFIX of the table's paths; METADATA is the path of its metadata. NAME is a branch, a tag
or, in digits, the id of a snapshot; without it the current snapshot is planned.
"""
import sys

import icescan


def main():
    folder, prefix, metadata, text, name = (*sys.argv[1:], "", "")[:5]
    asked = {"snapshot": int(name)} if name.isdigit() else {"ref": name or None}
    try:
        plan = icescan.plan(metadata, folder=folder, prefix=prefix, filter=text, **asked)
    except icescan.Error as refused:
        print(f"icescan: {refused}", file=sys.stderr)
        sys.exit(refused.status)
    sys.stdout.buffer.write(plan.text().encode("utf-8", "surrogateescape"))


if __name__ == "__main__":
    main()
