#!/usr/bin/env python3
"""Plays the same uneven class by program 1 and by program 2, and prints README's table of nodes used and steps made.

    test/programs.py SHEETS [WORD...]

SHEETS is the program, and the words go in front of it. A class has a fixed seed: each team has a speed of its own, from 1 to 8, and
the schedule draws a team by its speed, again and again. So the quick teams step eight times as often as the slow ones. The steps are
those up to and with the one after which every team has stopped; a listing that stops earlier is a listing of fewer steps, so the
number is found by halving.
"""

import random
import subprocess
import sys

SEED = 40
SHEETS = 4000
CAP = 16
NODES = 1023
STEPS = 16000
TEAMS = (2, 4, 8, 16, 32)
PROGRAMS = (1, 2)


def schedule(teams):
    """Team numbers, each drawn by its team's speed."""
    dice = random.Random(SEED * 100 + teams)
    speeds = [dice.randint(1, 8) for _ in range(teams)]
    return dice.choices(range(1, teams + 1), speeds, k=STEPS)


def listing(words, teams, program, steps):
    text = '0 %d %d %d %d %d\n%s\n' % (SHEETS, teams, CAP, NODES, program, ' '.join(map(str, steps)))
    done = subprocess.run(words, input=text.encode(), stdout=subprocess.PIPE, check=True)
    return done.stdout.decode().splitlines()


def all_stopped(words, teams, program, steps):
    """Whether after these steps every team has stopped; then nothing is unclaimed, which is a theorem."""
    last = listing(words, teams, program, steps)[-1].split()
    if last[3] != str(teams):
        return False
    if last[1] != '0':
        sys.exit('programs.py: all have stopped and %s sheets are unclaimed' % last[1])
    return True


def steps_needed(words, teams, program, steps):
    low, high = 0, len(steps)
    if not all_stopped(words, teams, program, steps):
        sys.exit('programs.py: %d steps are too few for %d teams' % (high, teams))
    while low < high:
        middle = (low + high) // 2
        if all_stopped(words, teams, program, steps[:middle]):
            high = middle
        else:
            low = middle + 1
    return low


def nodes_used(lines):
    """A new ledger has one node, and each split makes two."""
    return 1 + 2 * sum(line.startswith('split ') for line in lines)


def row(words, teams):
    steps = schedule(teams)
    cells = [teams]
    for program in PROGRAMS:
        cells.append(nodes_used(listing(words, teams, program, steps)))
    for program in PROGRAMS:
        cells.append(steps_needed(words, teams, program, steps))
    return cells


def main():
    if len(sys.argv) < 2:
        sys.exit(__doc__)
    words = sys.argv[2:] + [sys.argv[1]]
    print('| Teams | Nodes, program 1 | Nodes, program 2 | Steps, program 1 | Steps, program 2 |')
    print('|---|---|---|---|---|')
    for teams in TEAMS:
        print('| %d | %d | %d | %d | %d |' % tuple(row(words, teams)))


if __name__ == '__main__':
    main()
