"""Times programs on the longest texts and prints a table of README's shape; for test/bench.sh.

    python3 test/bench.py REPEATS SHEETS TWIN [WORD...]

The words go in front of a program. A time is the least processor time of REPEATS runs: processor time, because on a busy machine the time
on the clock says more about the other work.
"""

import os
import subprocess
import sys
import tempfile

import longest


def run_once(words, text):
    """The microseconds of processor time that one run takes, its output thrown away."""
    files = [(os.POSIX_SPAWN_OPEN, 0, text, os.O_RDONLY, 0),
             (os.POSIX_SPAWN_OPEN, 1, os.devnull, os.O_WRONLY, 0)]
    child = os.posix_spawn(words[0], words, os.environ, file_actions=files)
    _, status, used = os.wait4(child, 0)
    if status != 0:
        sys.exit('bench.py: %s failed on %s' % (words[-1], text))
    return (used.ru_utime + used.ru_stime) * 1e6


def times(repeats, programs, texts):
    """The least time of each program on each text. They take turns, so that a busy moment falls on all alike."""
    best = {}
    for _ in range(repeats):
        for text in texts:
            for program in programs:
                took = run_once(programs[program], text)
                best[program, text] = min(took, best.get((program, text), took))
    return best


def counts(words, text):
    """How many steps a text makes, none if it is refused, and how many lines it has printed."""
    with open(text, 'rb') as file:
        listing = subprocess.run(words, stdin=file, stdout=subprocess.PIPE, check=True).stdout
        file.seek(0)
        numbers = sum(len(line.partition(b'#')[0].split()) for line in file)
    return 0 if listing.startswith(b'refused') else numbers - 5, listing.count(b'\n')


def base(text):
    """The empty run whose time is taken off a text's: a refused text opens no ledger, so its is the empty text."""
    name = os.path.basename(text)
    bases = {'empty': None, 'nothing': None, 'refused': 'nothing'}
    taken_off = bases.get(name, 'empty')
    return taken_off and os.path.join(os.path.dirname(text), taken_off)


def ratio(one, other):
    return '%.2f' % (one / other) if other > 0 else '-'


def main():
    repeats, front = int(sys.argv[1]), sys.argv[4:]
    programs = {'sheets': front + [sys.argv[2]], 'twin': front + [sys.argv[3]]}
    with tempfile.TemporaryDirectory() as room:
        titles = longest.write(room)
        best = times(repeats, programs, list(titles))

        def net(program, text):
            return best[program, text] - best.get((program, base(text)), 0)

        print('| Text | Steps | Lines | sheets, ms | twin, ms | Ratio |\n|---|---|---|---|---|---|')
        for text, title in titles.items():
            steps, lines = counts(programs['twin'], text)
            s, t = net('sheets', text), net('twin', text)
            print('| %s | %s | %s | %.1f | %.1f | %s |' % (title, format(steps, ','), format(lines, ','), s / 1000, t / 1000, ratio(s, t)))
        print()
        for teams in (2, 32):
            few, many = ('%s/%d-%d' % (room, teams, nodes) for nodes in (3, 1023))
            print('a step at 1,023 nodes, that at 3 being 1 (%d teams): sheets %s, twin %s' % (
                teams, ratio(net('sheets', many), net('sheets', few)), ratio(net('twin', many), net('twin', few))))


if __name__ == '__main__':
    main()
