"""The texts of the benchmark: each as long as a text may be, or nearly, and each with its own kind of work. For test/bench.py."""

import os

TEXT_LIMIT = 65535
SHEETS = 2147483647
HERE = os.path.dirname(os.path.realpath(__file__))


def header(until, teams, nodes):
    return '0 %d %d 1 %d\n' % (until, teams, nodes)


def fill(text, words):
    """The text with the words over and over, as long as one more fits, and a line end where it is not full then."""
    rest, at = [], 0
    size = len(text)
    while size + len(words[at % len(words)]) <= TEXT_LIMIT:
        rest.append(words[at % len(words)])
        size += len(rest[-1])
        at += 1
    return text + ''.join(rest) + ('\n' if size < TEXT_LIMIT else '')


def playing(teams, nodes, word='%d '):
    """A huge range and batches of one sheet, so that every second step prints a line. All teams begin, a dozen steps each, and then the
    first two go on alone. Team 1 comes twice, for it must fetch its half after team 2 stole the other; so the first two have work in a
    table of 3 nodes, where nobody else finds any, as in one of 1,023, and the steps are of the same kind."""
    begin = [1, 2, 1] + list(range(3, teams + 1))
    text = header(SHEETS, teams, nodes) + ''.join(word % team * 12 for team in begin)
    return fill(text, [word % 1, word % 2])


def one_team():
    return fill(header(SHEETS, 1, 1), ['1 '])


def one_comment():
    text = header(SHEETS, 2, 3) + '1 2\n#'
    return (text + ' say it again' * 6000)[:TEXT_LIMIT]


def stopped_teams():
    """Eight sheets: after a few rounds every team has stopped, and a step is only met."""
    return fill(header(8, 32, 63), ['%d ' % team for team in range(1, 33)])


def refused_at_last_byte():
    return playing(2, 3)[:TEXT_LIMIT - 1] + 'x'


def many_nodes():
    with open(os.path.join(HERE, 'many-nodes.txt'), encoding='ascii') as file:
        return file.read()


# The first two are empty runs: a header and no step, and nothing at all, which is refused.
TEXTS = [
    ('empty', 'an empty run, in all', header(SHEETS, 2, 3)),
    ('nothing', 'an empty text, refused, in all', ''),
    ('2-3', '2 teams, 3 nodes', playing(2, 3)),
    ('2-1023', '2 teams, 1,023 nodes', playing(2, 1023)),
    ('32-3', '32 teams, 3 nodes', playing(32, 3)),
    ('32-1023', '32 teams, 1,023 nodes', playing(32, 1023)),
    ('one-team', 'one team', one_team()),
    ('many-nodes', 'many nodes in use, few lines', many_nodes()),
    ('stopped', 'stopped teams', stopped_teams()),
    ('ten-digits', 'numbers of ten digits', playing(2, 3, '%010d ')),
    ('comments', 'a comment on each line', playing(2, 3, '%d # the lesson of week 3, room 7: who types now\n')),
    ('comment', 'one long comment', one_comment()),
    ('refused', 'refused at its last byte', refused_at_last_byte()),
]


def write(folder):
    """Writes the texts to the folder, and gives their titles by the files' paths, in order."""
    titles = {}
    for name, title, text in TEXTS:
        assert len(text) <= TEXT_LIMIT, name
        path = os.path.join(folder, name)
        with open(path, 'w', encoding='ascii') as out:
            out.write(text)
        titles[path] = title
    return titles
