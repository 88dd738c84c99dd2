"""Does what README.md says to type, and holds what comes of it to what README.md shows.

    python3 test/readme.py

The example schedule gives the listing that stands below it; each command that runs `sheets` on an example gives the stored output;
the table of the two programs is what its script prints; each
script, folder and file that is named is there, and each page that is linked. Exit status 1 if something is not so.
"""

import os
import re
import subprocess
import sys

HERE = os.path.dirname(os.path.dirname(os.path.realpath(__file__)))
SCRIPTS = r'(?:bin|test|\.ci)/[\w.-]+'
PATHS = r'(?:bin|test|docs|examples|crates|\.ci)/[\w./-]*'


def blocks(page):
    """The blocks of lines that are set in by four spaces, without that and without blank lines."""
    found, block = [], []
    for line in page.split('\n') + ['']:
        if line.startswith('    '):
            block.append(line[4:].rstrip())
        elif block:
            found.append(block)
            block = []
    return found


def told(line):
    """A line of an example without what is said about it, which stands after two blanks or more."""
    return re.split(r'\s{2,}', line)[0]


def run(command, text=None):
    return subprocess.run(['bash', '-c', command], input=text, capture_output=True, text=True)


def faults(page):
    examples = 0
    schedule = next((b for b in blocks(page) if re.match(r'\d+( \d+){4}\b', b[0])), None)
    listing = next((b for b in blocks(page) if b[0].startswith('open ')), None)
    if schedule is None or listing is None:
        yield 'it shows no schedule, or no listing'
    else:
        wanted = ''.join(told(line) + '\n' for line in listing)
        got = run('bin/sheets', '\n'.join(schedule) + '\n')
        if (got.returncode, got.stdout) != (0, wanted):
            yield 'its schedule gives %r' % got.stdout
    for command in [line for block in blocks(page) for line in block if re.match(SCRIPTS, line)]:
        example = re.fullmatch(r'bin/sheets < (examples/[\w-]+)\.txt', command)
        if example:
            examples += 1
            with open(example.group(1) + '.out', encoding='ascii') as file:
                if run(command).stdout != file.read():
                    yield '%s does not give %s.out' % (command, example.group(1))
    if examples == 0:
        yield 'it shows no command that runs an example'
    table = run('python3 -B test/programs.py crates/sheets/out/sheets $(test/runner.sh)')
    if table.returncode != 0 or any(line not in page for line in table.stdout.splitlines()):
        yield 'its table of the two programs is not that of test/programs.py'
    for script in sorted(set(re.findall(r'(?<![\w/])' + SCRIPTS + r'(?=[\s`])', page))):
        if not os.access(script, os.X_OK):
            yield '%s is no script that can be run' % script
    for path in sorted(set(re.findall(r'`(' + PATHS + r')`', page) + re.findall(r'\]\(([\w./-]+)\)', page))):
        if not os.path.exists(path) and 'NAME' not in path:
            yield '%s is not there' % path


def main():
    os.chdir(HERE)
    with open('README.md', encoding='utf-8') as file:
        found = list(faults(file.read()))
    for fault in found:
        print('readme.py: README.md: ' + fault)
    return 1 if found else 0


if __name__ == '__main__':
    sys.exit(main())
