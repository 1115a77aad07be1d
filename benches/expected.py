#!/usr/bin/env python3
"""expected.py TABLE SHARE: the plan that a small table of generate.py has to have, by the rules of the table
specification alone: it looks at what the generator drew, not at the files, and tries each delete file on each data
file.
"""
import sys

sys.dont_write_bytecode = True
import generate  # noqa: E402

ODD = {byte: f"\\x{byte:02x}" for byte in [*range(33), 92, 127]}


def live(table, seed, content, at):
    """Each file of a manifest that is not deleted, with its sequence number."""
    for file in generate.files(table, seed, content, at):
        if file.status != generate.DELETED:
            yield generate.number_of(table, content, at) if file.own is None else file.own, file


def applies(delete, delete_number, data, data_number):
    partition = (delete.day, delete.bucket) == (data.day, data.bucket)
    if delete.content == generate.POSITION:
        return data_number <= delete_number and partition and delete.named in (None, data.path)
    return data_number < delete_number and partition


def order(pair):
    return pair[1].path.encode()


def plan(name, share, seed="icescan"):
    table, seed = generate.TABLES[name].of(share), f"{seed} {name}"
    found = [pair for content, at in generate.manifests(table) for pair in live(table, seed, content, at)]
    data = sorted([pair for pair in found if pair[1].content == generate.DATA], key=order)
    deletes = sorted([pair for pair in found if pair[1].content != generate.DATA],
                     key=lambda pair: (pair[1].content, order(pair)))
    count = 0
    for number, file in data:
        yield f"data {file.path.translate(ODD)} seq {number} spec 0 rows {file.rows} size {file.size}"
        for of_delete, delete in deletes:
            if applies(delete, of_delete, file, number):
                count += 1
                ids = " ids " + ",".join(map(str, delete.ids)) if delete.content == generate.EQUALITY else ""
                yield f"  {'eq' if ids else 'pos'} {delete.path.translate(ODD)} seq {of_delete}{ids}"
    yield f"files {len(data)} deletes {count}"


if __name__ == "__main__":
    for line in plan(sys.argv[1], float(sys.argv[2])):
        print(line)
