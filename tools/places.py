#!/usr/bin/env python3
"""Counts the places of docs/DESIGN-PASS.md in src/, point by point, and names each with its file and line.

    tools/places.py [FOLDER]        the counts, and where each place is
    tools/places.py --counts [FOLDER]

FOLDER is a checkout of the repository, by default the one that this file stands in. A count is of places that look like the point; whether
each is one is said on the page.
"""
import collections
import pathlib
import re
import sys

FUNCTION = re.compile(r'^(?P<indent> *)(?:pub(?:\(crate\))? )?(?:const )?(?:unsafe )?(?:extern "C" )?fn (?P<name>\w+)', re.M)
STRUCT = re.compile(r'^(?:pub(?:\(crate\))? )?struct (?P<name>\w+)[^{;]*\{(?P<body>.*?)^\}', re.M | re.S)
KEYWORDS = set('as break const continue else enum false fn for if impl in let loop match mod mut pub ref return self Self static struct true '
               'use where while bool u8 u32 u64 usize i32'.split())


def functions(text):
    """Each function with its line, signature and body, without comments and clauses."""
    for found in FUNCTION.finditer(text):
        indent = found.group('indent')
        rest = text[found.start():]
        closed = re.search(r'^%s\{?$' % indent, rest, re.M)
        ended = re.search(r'^%s\}' % indent, rest, re.M)
        if not ended:
            continue
        whole = rest[:ended.end()]
        line = text.count('\n', 0, found.start()) + 1
        clauses = re.search(r'^ *(requires|ensures|where)\b', whole, re.M)
        opened = re.search(r'^%s\{$' % indent, whole, re.M)
        if opened:
            head = whole[:clauses.start()] if clauses and clauses.start() < opened.start() else whole[:opened.start()]
            body = whole[opened.start():]
        else:
            cut = whole.find('{')
            head, body = whole[:cut], whole[cut:]
        yield found.group('name'), line, head, re.sub(r'//.*', '', body), whole


def shape(head, body):
    """A function without its names, numbers and strings."""
    tokens = re.findall(r'b?"[^"]*"|b?\'[^\']+\'|\w+|[^\s\w]', head + body)
    out = []
    for token in tokens:
        if token in KEYWORDS or not re.match(r'[\w"\']', token):
            out.append(token)
        elif token[0].isdigit():
            out.append('0')
        elif token[0] in '"\'' or token[:2] in ('b"', "b'"):
            out.append('s')
        else:
            out.append('x')
    return tuple(out)


def main():
    arguments = [a for a in sys.argv[1:] if a != '--counts']
    only = '--counts' in sys.argv
    root = pathlib.Path(arguments[0]) if arguments else pathlib.Path(__file__).resolve().parent.parent
    places = collections.OrderedDict()

    def note(kind, where, what):
        places.setdefault(kind, []).append('%s  %s' % (where, what))

    twins = collections.defaultdict(list)
    requires = collections.defaultdict(list)
    for path in sorted(root.glob('crates/*/src/**/*.rt')):
        name = str(path.relative_to(root))
        text = path.read_text()

        def each(kind, pattern, flags=re.M):
            for found in re.finditer(pattern, text, flags):
                start = found.start() + len(found.group()) - len(found.group().lstrip())
                line = text.count('\n', 0, start) + 1
                note(kind, '%s:%d' % (name, line), found.group().strip().split('\n')[0][:100])

        for found in STRUCT.finditer(text):
            line = text.count('\n', 0, found.start()) + 1
            fields = re.findall(r'^ +(?:pub )?(\w+): ([^,]+),', found.group('body'), re.M)
            names = [field for field, _ in fields]
            flag = [field for field, of in fields if field in ('code', 'fault', 'stranger', 'ok', 'has_ended', 'goes_on', 'kind')
                    and of in ('u32', 'bool', 'Kind', 'Verdict')]
            if flag:
                note('1a a struct with a code, a flag or a kind beside values', '%s:%d' % (name, line), '%s: %s' % (found.group('name'), ', '.join(flag)))
            if any(of.startswith('[') for _, of in fields) and 'count' in names:
                note('6a an array with its length beside', '%s:%d' % (name, line), found.group('name'))
        each('1b a constant for a kind or a state', r'^ +pub const (?:AVAILABLE|OWNED|COMPLETED|STOLEN|EXPANDED|OWN|ADVANCE|MARK|EXPAND|LOOK|REPORT|PUSH|LAST|GREATEST): u32')
        each('1d a refusal by its number', r'(?:refused_by|unmoved_by|refuse|ruled_by)\([^;{]*?\b[1-9]\d?\b|\bcode: [1-9]\d?\b|\bcode [!=]= \d+|return [1-9]\d?;|pick\([^;]*?, [1-9]\d?, ')
        each('3 a `while` loop', r'^ *while .*')
        each('4a a call of lesser, less_by, larger, pick or same_number', r'\b(?:numbers::)?(?:lesser|less_by|larger|pick|same_number)\((?!\w+: )')
        each('4b a record copied by hand, one field changed or all written out', r'let mut (\w+) = \w+;\n +\1\.\w+(?:\[\w+\])? = |^ +(\w+): \w+\.\2,\n(?: +(\w+): (?:\w+\.)?\3,\n){2,}')
        each('4c a value printed by a helper', r'\bprint::(?:text|number|long|signed|truth|words|byte|bytes|yes|line)\(')
        each('4d a field given a variable of its own name', r'^ +(\w+): \1,$')
        each('7 a switch on which step or program to run', r'match (?:\w+\.)*(?:program|place) \{')
        for function, line, head, body, whole in functions(text):
            where = '%s:%d' % (name, line)
            if re.search(r'code|refusal', function) and re.search(r'-> u32', head):
                note('1c a function that answers a code as a number', where, function)
            if re.search(r'teams: u32, room: u32, used: u32|area: &mut \[u8\],\s+at: usize|number: u32, (?:cap: u32, )?t: Team|start: \w+,\s+until: \w+,\s+teams: \w+', head):
                note('5a parameters that travel together', where, function)
            if re.search(r'\w+: &(?:mut )?\[\w+\], (?:count|len)\w*: usize|\[\w+; [\w:]+\], count: ', head):
                note('6b a buffer and its length as two parameters', where, function)
            if len(shape('', body)) >= 18:
                twins[shape(head, body)].append((where, function))
            for clause in re.findall(r'requires \{ (.*?) \}\n', whole):
                requires[(name.split('/')[1], clause)].append((where, function))
    for group in sorted(twins.values()):
        if len(group) > 1:
            note('2 functions that are the same but for names and numbers, by groups', group[0][0], ', '.join(f for _, f in group) + ' (%d)' % len(group))
    for (crate, clause), group in sorted(requires.items()):
        if len(group) > 2:
            note('5b a requires that stands in three functions or more', group[0][0], '%s (%d)' % (clause[:60], len(group)))
    proofs = list(root.glob('crates/*/proofs/**/*.antt'))
    for kind in ('Answers', 'Invariants', 'Proof'):
        places['8 files %s.antt' % kind] = [str(p.relative_to(root)) for p in proofs if p.name == kind + '.antt']
    for kind in sorted(places):
        print('%4d  %s' % (len(places[kind]), kind))
        if not only:
            for place in places[kind]:
                print('          ' + place)


main()
