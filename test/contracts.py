"""Holds every contract that another crate may lean on to what docs/CONTRACTS.md says of contracts.

    python3 test/contracts.py

A public function of a library, or a method of a public trait, has no `requires` and an `ensures` that is an equation; one whose `requires`
or `ensures` has a condition is named in the section "Contracts under a condition", on a line '- crate::fn: why', and no other function is.
Each call that docs/CONTRACTS.md names is there, and each must-fail edit that a page of docs/ names. Exit status 1 if something is not so.
"""

import glob
import os
import re
import sys

HERE = os.path.dirname(os.path.dirname(os.path.realpath(__file__)))
PAGE = os.path.join('docs', 'CONTRACTS.md')
SECTION = 'Contracts under a condition'


class Function:
    """A public function: its crate, its name with the type that it belongs to, and its contract's clauses."""

    def __init__(self, crate, name, header):
        self.crate, self.name, self.last = crate, crate + '::' + name, name.split('::')[-1]
        self.asks = re.search(r'^\s*requires\b', header, re.M) is not None
        self.says = clauses(header)

    def has_condition(self):
        """Whether some part of the contract holds under a condition only. A fact beside an equation for the result takes nothing from it."""
        is_equation = any(is_equation_for_result(formula) for formula in self.says)
        return self.asks or any(
            is_conditional(part) and ('.new' in part or not is_equation) for formula in self.says for part in parts(formula, '×'))


def clauses(header):
    """What the ensures clauses say: each formula between its braces."""
    found = []
    for clause in re.finditer(r'^\s*ensures(?:\s+\w+)?\s*\{', header, re.M):
        depth, at = 1, clause.end()
        while depth and at < len(header):
            depth += (header[at] == '{') - (header[at] == '}')
            at += 1
        found.append(header[clause.end():at - 1].strip())
    return found


def stripped(formula):
    """The formula without parentheses that stand round all of it."""
    formula = formula.strip()
    while formula.startswith('(') and closing(formula) == len(formula) - 1:
        formula = formula[1:-1].strip()
    return formula


def closing(formula):
    """Where the parenthesis that opens the formula is closed."""
    depth = 0
    for at, sign in enumerate(formula):
        depth += (sign == '(') - (sign == ')')
        if depth == 0:
            return at
    return -1


def parts(formula, sign):
    """What the sign parts at the top of the formula."""
    depth, found, start, formula = 0, [], 0, stripped(formula)
    for at, other in enumerate(formula):
        depth += (other in '({') - (other in ')}')
        if other == sign and depth == 0:
            found.append(formula[start:at])
            start = at + 1
    return [stripped(part) for part in found + [formula[start:]]]


def is_conditional(formula):
    return len(parts(formula, '→')) > 1


def is_equation_for_result(formula):
    return any(re.match(r'result\s*≡', part) is not None for part in parts(formula, '×'))


def functions():
    found = []
    for root in sorted(glob.glob('crates/*/src/lib.rt')):
        crate = root.split(os.sep)[1]
        for path in sorted(glob.glob(os.path.join(os.path.dirname(root), '**', '*.rt'), recursive=True)):
            with open(path, encoding='utf-8') as file:
                found += functions_in(crate, file.read().split('\n'))
    return found


def functions_in(crate, lines):
    found, of_type, in_trait = [], '', False
    for at, line in enumerate(lines):
        block = re.match(r'(pub trait|impl(?:<[^>]*>)?)\s+(\w+)', line)
        if block or line == '}':
            of_type = block.group(2) + '::' if block else ''
            in_trait = block is not None and block.group(1) == 'pub trait'
        opened = re.match(r'\s*pub (?:unsafe )?(?:extern "C" )?fn (\w+)', line) or (in_trait and re.match(r'\s*(?:final )?fn (\w+)', line))
        if opened:
            found.append(Function(crate, of_type + opened.group(1), header_from(lines[at:])))
    return found


def header_from(lines):
    """The function up to its body, a line that is, or ends in, an opening brace which no line of a contract closes; or up to its end, where a
    trait's method has no body."""
    header = []
    for line in lines:
        header.append(line)
        if line.strip() == '{' or line.endswith(';') or (line.endswith('{') and not re.match(r'\s*(ensures|requires)\b', line)):
            break
    return '\n'.join(header)


def listed(page):
    """The functions that the page's section names, crate and last name."""
    section = re.search(r'^## ' + SECTION + r'\n(.*?)(?=^## |\Z)', page, re.M | re.S)
    return [] if section is None else re.findall(r'^- `?([a-z_]+)::(?:\w+::)*(\w+)(?:\([^)]*\))?`?:', section.group(1), re.M)


def faults(found, page):
    known = {(f.crate, f.last) for f in found}
    crates, owned = {f.crate for f in found}, {f.name.split('::', 1)[1] for f in found if f.name.count('::') == 2}
    conditional = {(f.crate, f.last): f.name for f in found if f.has_condition()}
    for f in found:
        if not f.says:
            yield '%s has no ensures' % f.name
    for key, name in sorted(conditional.items()):
        if key not in listed(page):
            yield '%s has a contract under a condition, and %s does not list it' % (name, PAGE)
    for key in listed(page):
        if key not in conditional:
            yield '%s lists %s::%s, whose contract has no condition' % (PAGE, *key)
    for crate, path in re.findall(r'`([a-z_]+)::((?:\w+::)*\w+)', page):
        if crate in crates and (crate, path.split('::')[-1]) not in known:
            yield '%s names %s::%s, which is no public function' % (PAGE, crate, path)
        if crate not in crates and not os.path.isdir(os.path.join('crates', crate)):
            yield '%s names %s::%s, and there is no crate %s' % (PAGE, crate, path, crate)
    for call in re.findall(r'`([A-Z]\w*::\w+)\(', page):
        if call not in owned:
            yield '%s names %s, which is no public function' % (PAGE, call)


def missing_edits():
    """The edits that a page of docs/ or README names, and that are not there."""
    for path in sorted(glob.glob(os.path.join('docs', '*.md')) + ['README.md']):
        with open(path, encoding='utf-8') as file:
            named = re.findall(r'\b(\w+)/must-fail/(\w+)', file.read())
        for crate, label in named:
            if not os.path.isfile(os.path.join('crates', crate, 'must-fail', label + '.edit')):
                yield '%s names the edit %s/must-fail/%s, which is not there' % (path, crate, label)


def main():
    os.chdir(HERE)
    found = functions()
    with open(PAGE, encoding='utf-8') as file:
        told = sorted(set(faults(found, file.read())) | set(missing_edits()))
    for fault in told:
        print('contracts.py: ' + fault)
    print('%d public functions, %d faults' % (len(found), len(told)))
    return 1 if told or not found else 0


if __name__ == '__main__':
    sys.exit(main())
