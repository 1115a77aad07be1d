#!/usr/bin/env python3
"""c_header.py FILE: writes a program in C that compiles only where `c/proved.h` declares what the crate exports.

It is made from the sources of `crates/icescan_c` and of `icescan_c_files`, `icescan_c_lent` and `icescan_c_requests`,
and declares each exported function once more, with the types that its parameters have there: a compiler refuses two
declarations that differ. Of each struct that crosses to C it asserts the size, of each field its type and its place,
and of each status of the library's own its number. It uses every function that `include/icescan.h` declares, so that
the linker refuses one that the library lacks, and ends with status 0 where the library has the header's version.
Compared here are the names of functions and of their parameters, by their order, in the crate, in `c/proved.h` and in
`include/icescan.h`, and the version that the header, the program and the package for Python have: the status is 1 where
they differ.

`tools/trials/try_c` compiles, links and runs it.
"""
import glob
import os
import re
import sys

TOP = os.path.dirname(os.path.dirname(os.path.dirname(os.path.abspath(__file__))))
CRATES = ("icescan_c", "icescan_c_files", "icescan_c_lent", "icescan_c_requests")
SOURCES = sorted(it for name in CRATES for it in glob.glob(f"{TOP}/crates/{name}/src/*.rt"))
ENDINGS = f"{TOP}/crates/icescan_c_requests/src/endings.rt"
HEADER, PROVED = f"{TOP}/include/icescan.h", f"{TOP}/c/proved.h"
# Where a version stands, as text.
VERSIONS = {
    HEADER: r'^#define ICESCAN_VERSION_TEXT "(.*)"$',
    f"{TOP}/crates/icescan_words/src/command_line.rt": r'\.version\("(.*)"\)',
    f"{TOP}/python/icescan/__init__.py": r'^__version__ = "(.*)"$',
}

STRUCTS = {
    "Handle": "icescan_handle",
    "Bytes": "icescan_bytes",
    "Ids": "icescan_ids",
    "File": "icescan_file",
    "Value": "icescan_value",
    "ValueType": "icescan_type",
    "Reason": "icescan_reason_of",
}
NUMBERS = {"usize": "size_t", "u32": "uint32_t", "u64": "uint64_t", "i32": "int32_t", "i64": "int64_t"}
POINTERS = {"*const u8": "const uint8_t *", "*const i32": "const int32_t *"}
# What a handle holds is nobody's but the library's: the header gives its pointer no type. `type` is a word of Rust.
FIELDS = {("Handle", "at"): ("held", "void *"), ("Value", "value_type"): ("type", "icescan_type")}

EXPORT = re.compile(r'#\[unsafe\(no_mangle\)\]\s*pub extern "C" fn (\w+)\((.*?)\)(?: -> (\w+))?\s', re.S)
STRUCT = re.compile(r"#\[repr\(C\)\]\s*(?:#\[derive\([^)]*\)\]\s*)?pub struct (\w+) \{(.*?)\n\}", re.S)
FIELD = re.compile(r"^\s*(?:pub )?(\w+): ([^,{}]+),$", re.M)
STATUS = re.compile(r"Err\(Refusal::(\w+)\) => (\d+),")
DECLARED = re.compile(r"^(?:uint32_t|void) (?:proved_)?(icescan_\w+)\(([^)]*)\);", re.M)


def words_of(name, kind):
    """The parameters in C of one of this name and type, each with its name; a `Global` takes none."""
    if kind == "Global":
        return []
    if kind == "&[u8]":
        return [("const uint8_t *", name), ("size_t ", name + "_len")]
    if kind.startswith("&mut "):
        return [({**STRUCTS, **NUMBERS}[kind[5:]] + " *", name)]
    return [(NUMBERS[kind] + " ", name)]


def parameters_of(text):
    """The parameters of an exported function in C."""
    pairs = [it.split(":", 1) for it in text.split(",") if it.strip()]
    return [word for name, kind in pairs for word in words_of(name.strip(), kind.strip())]


def type_of(name, field, kind):
    """What a field is called in C, and its type."""
    return FIELDS.get((name, field)) or (field, {**STRUCTS, **NUMBERS, **POINTERS}[kind])


def declared_again(name, text, result):
    words = ", ".join(kind + parameter for kind, parameter in parameters_of(text))
    return f"{NUMBERS[result] if result else 'void'} proved_{name}({words or 'void'});"


def exported_names(source):
    """The functions that the crate exports, with the names of their parameters."""
    return {name: [parameter for _, parameter in parameters_of(text)] for name, text, _ in EXPORT.findall(source)}


def declared_names(header, left_out=()):
    """Those that a header declares; what may grow is handed in with its size, which no proved function takes."""
    for name, text in DECLARED.findall(header):
        names = re.findall(r"(\w+)(?:,|$)", " ".join(text.split()))
        yield name, [it for it in names if it not in ("void", *left_out)]


def twin_of(name, fields):
    """A struct as the library has it, and that the header's is the same."""
    c, twin = STRUCTS[name], f"twin_of_{name}"
    kept = [type_of(name, field, kind) for field, kind in fields if kind != "Global"]
    yield f"struct {twin} {{ {' '.join(f'{kind} {field};' for field, kind in kept)} }};"
    yield f'_Static_assert(sizeof({c}) == sizeof(struct {twin}), "size of {c}");'
    for field, kind in kept:
        yield f'_Static_assert(offsetof({c}, {field}) == offsetof(struct {twin}, {field}), "place of {c}.{field}");'
        yield f'_Static_assert(_Generic((({c} *)0)->{field}, {kind}: 1, default: 0), "type of {c}.{field}");'


def numbers():
    """The numbers of statuses, by their names in C."""
    for name, number in STATUS.findall(open(ENDINGS).read()):
        yield re.sub("([A-Z])", r"_\1", name).upper()[1:], number


def compared(source, header, proved):
    """Ends where the names of functions, or versions, differ."""
    has, passes = exported_names(source), dict(declared_names(proved))
    says = dict(declared_names(header, ("size",)))
    # No proved function is needed for it.
    del says["icescan_version"]
    if not has == says == passes:
        raise SystemExit(f"c_header.py: the library has {has}, icescan.h {says}, and proved.h {passes}")
    versions = {path: re.findall(pattern, open(path).read(), re.M) for path, pattern in VERSIONS.items()}
    (text,) = versions[HEADER]
    first, second, third = map(int, text.split("."))
    number = re.search(r"^#define ICESCAN_VERSION (\d+)$", header, re.M).group(1)
    if any(it != [text] for it in versions.values()) or int(number) != 10000 * first + 100 * second + third:
        raise SystemExit(f"c_header.py: versions differ: {versions}, ICESCAN_VERSION {number}")


def program():
    source, header = "\n".join(open(path).read() for path in SOURCES), open(HEADER).read()
    structs = STRUCT.findall(source)
    compared(source, header, open(PROVED).read())
    if sorted(it[0] for it in structs) != sorted(STRUCTS):
        raise SystemExit(f"c_header.py: the library has the structs {[it[0] for it in structs]}")
    lines = ['#include "proved.h"']
    for name, fields in structs:
        lines += twin_of(name, FIELD.findall(fields))
    lines += [f'_Static_assert(ICESCAN_{name} == {number}, "number of {name}");' for name, number in numbers()]
    lines += [declared_again(*it) for it in EXPORT.findall(source)]
    lines += ["typedef void (*call)(void);", "int main(void) {"]
    lines += [f"    call calls[] = {{{', '.join(f'(call){name}' for name, _ in DECLARED.findall(header))}}};"]
    lines += ["    for (size_t i = 0; i < sizeof calls / sizeof *calls; i++)", "        if (!calls[i])"]
    return "\n".join([*lines, "            return 1;", "    return icescan_version() != ICESCAN_VERSION;", "}", ""])


if __name__ == "__main__":
    with open(sys.argv[1], "w") as it:
        it.write(program())
