#!/usr/bin/env python3
"""Lines of JSON against the lines of text, and against the metadata file itself.

json_lines.py PROGRAM      asks PROGRAM for `columns`, `audit`, `explain`, `reachable` and `show` of the tables in
                           examples/ and of tables of the transcript, as text and as JSON, and compares
json_lines.py expect COMMAND [METADATA]
                           the lines of JSON for a text on standard input, of `columns`, `audit`, `explain`,
                           `reachable` or `orphans`; of `show` for a metadata file
"""
import json
import os
import re
import subprocess
import sys

TOP = os.path.dirname(os.path.dirname(os.path.dirname(os.path.abspath(__file__))))


def plain(word):
    """The bytes that an escaped word stands for, as a text."""
    raw = re.sub(rb'\\x([0-9a-f]{2})', lambda m: bytes([int(m.group(1), 16)]), word.encode())
    return raw.decode()


def line(**members):
    return json.dumps({k.replace('_', '-'): v for k, v in members.items()}, separators=(',', ':'), ensure_ascii=False)


def quoted(name):
    """A name as a filter writes it."""
    words = 'and or not in is null starts with true false'.split()
    if re.fullmatch(r'[A-Za-z_][A-Za-z0-9_]*', name) and name not in words:
        return name
    return '"' + name.replace('"', '""') + '"'


def columns_of(schema):
    """Each column of a schema, before those inside it: id, type, whether it is required, its name or None."""
    def inside(kind, path):
        if not isinstance(kind, dict):
            return
        if kind['type'] == 'struct':
            for field in kind['fields']:
                of = None if path is None else path + [field['name']]
                yield from one(field['id'], field['type'], field['required'], of)
        elif kind['type'] == 'list':
            yield from one(kind['element-id'], kind['element'], kind['element-required'], None)
        else:
            yield from one(kind['key-id'], kind['key'], True, None)
            yield from one(kind['value-id'], kind['value'], kind['value-required'], None)

    def one(number, kind, required, path):
        yield number, kind['type'] if isinstance(kind, dict) else kind.replace(' ', ''), required, path
        yield from inside(kind, path)
    return list(inside({'type': 'struct', 'fields': schema['fields']}, []))


def compared(kind, path):
    if path is None or kind in ('struct', 'list', 'map', 'float', 'double') or kind.startswith('decimal'):
        return 'no'
    return 'equality' if kind == 'uuid' else 'yes'


def schema_lines(schema):
    columns = columns_of(schema)
    yield line(kind='schema', schema=schema['schema-id'], columns=len(columns))
    for number, kind, required, path in columns:
        name = None if path is None else '.'.join(quoted(part) for part in path)
        yield line(kind='column', schema=schema['schema-id'], column=number, type=kind, required=required,
                   filter=compared(kind, path), name=name)


def spec_lines(spec):
    yield line(kind='spec', spec=spec['spec-id'], fields=len(spec['fields']))
    for field in spec['fields']:
        yield line(kind='field', spec=spec['spec-id'], field=field['field-id'], source=field['source-id'],
                   transform=field['transform'], name=field['name'])


def of_show(metadata):
    current = metadata.get('current-snapshot-id')
    current = None if current == -1 else current
    yield line(kind='table', table_uuid=metadata['table-uuid'].lower(), location=metadata['location'],
               last_sequence_number=metadata['last-sequence-number'], current_snapshot=current,
               current_schema=metadata['current-schema-id'], default_spec=metadata['default-spec-id'])
    for schema in metadata['schemas']:
        yield from schema_lines(schema)
    for spec in metadata['partition-specs']:
        yield from spec_lines(spec)
    for s in metadata.get('snapshots', []):
        yield line(kind='snapshot', snapshot=s['snapshot-id'], seq=s['sequence-number'], at=s['timestamp-ms'],
                   parent=s.get('parent-snapshot-id'), operation=s.get('summary', {}).get('operation'),
                   list=s.get('manifest-list'))
    refs = metadata.get('refs', {})
    if current is not None:
        yield line(kind='ref', ref='main', type='branch', snapshot=current)
    for name in sorted(refs, key=str.encode):
        if name != 'main':
            yield line(kind='ref', ref=name, type=refs[name]['type'], snapshot=refs[name]['snapshot-id'])


def of_columns(text):
    schema = spec = None
    for row in text:
        word, _, rest = row.partition(' ')
        if word == 'schema':
            schema, count = re.fullmatch(r'(\S+) columns (\d+)', rest).groups()
            yield line(kind='schema', schema=int(schema), columns=int(count))
        elif word == 'column':
            number, kind, required, how, name = re.fullmatch(
                r'(\S+) type (\S+) required (\S+) filter (\S+) name (.*)', rest).groups()
            name = None if name == '-' else plain(name) if '\\' in name else name
            yield line(kind='column', schema=int(schema), column=int(number), type=plain(kind),
                       required=required == 'yes', filter=how, name=name)
        elif word == 'default-spec':
            yield line(kind='default-spec', spec=int(rest))
        elif word == 'spec':
            spec, count = re.fullmatch(r'(\S+) fields (\d+)', rest).groups()
            yield line(kind='spec', spec=int(spec), fields=int(count))
        else:
            number, source, transform, name = re.fullmatch(
                r'(\S+) source (\S+) transform (\S+) name (.*)', rest).groups()
            yield line(kind='field', spec=int(spec), field=int(number), source=int(source),
                       transform=plain(transform), name=plain(name) if '\\' in name else name)


def of_audit(text):
    faults = 0
    for row in text:
        words = row.split(' ')
        has = dict(zip(words[::2], words[1::2]))
        if words[0] == 'finding':
            fault = not has['finding'].startswith(('dangling-', 'total-'))
            faults += fault
            if 'says' in has:
                yield line(kind='finding', finding=has['finding'], level='note', says=int(has['says']),
                           counted=int(has['counted']))
                continue
            yield line(kind='finding', finding=has['finding'], level='fault' if fault else 'note',
                       manifest=plain(has['manifest']), file=plain(has['file']) if 'file' in has else None,
                       field=plain(has['field']) if 'field' in has else None,
                       column=int(has['column']) if 'column' in has else None)
        else:
            yield line(kind='totals', manifests=int(has['manifests']), entries=int(has['entries']),
                       findings=int(has['findings']), faults=faults)


def of_explain(text):
    """The lines for a text, but for the bytes of delete files that are left out, which the text does not count."""
    for row in text:
        words = row.split(' ')
        if words[0] in ('manifest', 'data', 'delete') and not words[1].isdigit():
            kept = words[2] != 'pruned'
            bounds = words[0] == 'data' and words[4:5] == ['bounds']
            by = None if kept else 'bounds' if bounds else 'partition'
            name = None if kept or len(words) == 3 else plain(words[-1])
            yield line(kind=words[0], path=plain(words[1]), kept=kept, by=by, name=name,
                       applies=int(words[3]) if words[2] == 'applies' else None)
        else:
            has = dict(zip(words[::2], words[1::2]))
            of = {'manifests': 'manifest', 'data': 'data', 'deletes': 'delete'}[words[0]]
            yield line(kind='totals', of=of, all=int(words[1]), kept=int(has.get('kept', has.get('wanted', 0))),
                       partition=int(has.get('partition', has.get('pruned', 0))), bounds=int(has.get('bounds', 0)),
                       bytes=int(has.get('bytes', 0)))


def of_files(text):
    for row in text:
        word, path = row.split(' ')
        yield line(kind=word, path=plain(path))


MAKERS = {'columns': of_columns, 'audit': of_audit, 'explain': of_explain, 'reachable': of_files, 'orphans': of_files}


def asked(program, command, words, stdin=None):
    run = subprocess.run([program, command, *words], cwd=TOP, capture_output=True,
                         stdin=open(stdin, 'rb') if stdin else subprocess.DEVNULL)
    return run.returncode, run.stdout.decode()


def without_bytes(rows):
    """The total of delete files without its bytes."""
    return [re.sub(r'("of":"delete".*"bytes":)-?\d+', r'\g<1>0', row) for row in rows]


def main(program):
    tables = []
    for name, metadata in (('events', '00009-ea5012f5-592b-59fd-6564-e953f439e682'),
                           ('plain', '00005-c64aaab7-8283-c18e-53ea-99e6e56da046')):
        path = f's3://warehouse/db/{name}/metadata/{metadata}.metadata.json'
        where = f'examples/{name}-java/table'
        tables.append((['--dir', where, '--prefix', f's3://warehouse/db/{name}', path], None,
                       os.path.join(TOP, where, 'metadata', metadata + '.metadata.json')))
    data = os.path.join(TOP, 'crates/icescan_runs/data')
    tables.append((['--dir', data + '/columns', '--prefix', 'mem://t', 'mem://t/names.json'], None,
                   data + '/columns/names.json'))
    for name in sorted(os.listdir(data + '/audits')):
        tables.append((['--bundle', 'mem://t/v1.json'], os.path.join(data, 'audits', name), None))
    tried = wrong = 0
    for words, stdin, metadata in tables:
        for command in ('columns', 'audit', 'explain', 'reachable'):
            more = ['--filter', 'id = 42'] if command == 'explain' and 'events' in words[1] else []
            status, text = asked(program, command, more + words, stdin)
            status_json, found = asked(program, command, ['--format', 'json'] + more + words, stdin)
            wanted = list(MAKERS[command](text.splitlines())) if text else []
            found = without_bytes(found.splitlines())
            tried += 1
            if status != status_json or found != wanted:
                wrong += 1
                print('differs:', command, words, stdin or '')
        if metadata:
            _, found = asked(program, 'show', ['--format', 'json'] + words, stdin)
            tried += 1
            if found.splitlines() != list(of_show(json.load(open(metadata)))):
                wrong += 1
                print('differs: show', words)
    print(f'{tried} compared, {wrong} differ')
    return 1 if wrong else 0


if __name__ == '__main__':
    if sys.argv[1:2] == ['expect'] and len(sys.argv) > 2:
        if sys.argv[2] == 'show':
            rows = of_show(json.load(open(sys.argv[3])))
        else:
            rows = MAKERS[sys.argv[2]](sys.stdin.read().splitlines())
        print('\n'.join(rows))
    elif len(sys.argv) == 2:
        sys.exit(main(os.path.abspath(sys.argv[1])))
    else:
        sys.exit(__doc__)
