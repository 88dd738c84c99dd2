"""Writes test texts for `sheets`, the same ones for the same seed.

    python3 test/texts.py SEED COUNT DIR

Text i depends on the seed and on i alone.  The kinds below take turns, so any
COUNT of some dozens has every kind, and a file's name says which kind it is.
Where a kind has a list of cases, its texts go through the list in order.
"""

import os
import random
import sys

TEXT_LIMIT = 65535
NUMBER_LIMIT = 2147483647
TEAMS_LIMIT = 32
CAP_LIMIT = 4096
NODES_LIMIT = 1023


class Chance(random.Random):
    """Chance for one text, which also knows how many texts of its kind came before."""

    def __init__(self, seed, number, earlier):
        super().__init__('%s %d' % (seed, number))
        self.earlier = earlier

    def next_of(self, cases):
        return cases[self.earlier % len(cases)]


# ---- Headers

def a_range(g):
    """Start and until: empty, tiny, middling, huge, or at the top of the numbers."""
    size = g.choice([0, 1, 2, 3, 4, 5, 7, 16, 100, 1000, 30000, NUMBER_LIMIT])
    start = g.choice([0, 0, 0, 1, 10, 999, NUMBER_LIMIT - size, NUMBER_LIMIT])
    return start, min(start + size, NUMBER_LIMIT)


def a_program(g):
    """The sixth number of a header, which names the program, or none."""
    return g.choice([[], [], [1], [2], [2]])


def a_header(g):
    start, until = a_range(g)
    teams = g.choice([1, 2, 2, 3, 4, 5, 8, 12, 31, TEAMS_LIMIT])
    cap = g.choice([1, 1, 2, 3, 5, 16, 100, CAP_LIMIT - 1, CAP_LIMIT])
    nodes = g.choice([1, 2, 3, 4, 5, 6, 7, 8, 9, 15, 31, 100, 1022, NODES_LIMIT])
    return [start, until, teams, cap, nodes] + a_program(g)


def a_stealing_header(g):
    """Two teams or more, room to split, and enough sheets that stealing pays."""
    start = g.choice([0, 0, 5, 1000])
    size = g.choice([6, 20, 64, 500, 10**6, NUMBER_LIMIT - 1000])
    teams = g.choice([2, 3, 4, 6, 8, 16, TEAMS_LIMIT])
    nodes = g.choice([3, 5, 6, 7, 9, 15, 63, NODES_LIMIT])
    return [start, start + size, teams, g.choice([1, 2, 4, 8, 64, CAP_LIMIT]), nodes] + a_program(g)


# ---- Schedules, each a list of team numbers

def at_random(g, teams, length):
    return [g.randint(1, teams) for _ in range(length)]


def round_robin(g, teams, length):
    order = g.sample(range(1, teams + 1), teams)
    return [order[i % teams] for i in range(length)]


def in_bursts(g, teams, length):
    schedule = []
    while len(schedule) < length:
        schedule += [g.randint(1, teams)] * g.randint(1, 12)
    return schedule[:length]


def one_slow(g, teams, length):
    """One team steps rarely, so what it owns is stolen under it."""
    slow = g.randint(1, teams)
    others = [t for t in range(1, teams + 1) if t != slow] or [slow]
    return [slow if g.random() < 0.05 else g.choice(others) for _ in range(length)]


def one_silent(g, teams, length):
    """One team takes the root, claims a little and is never heard of again."""
    silent = g.randint(1, teams)
    others = [t for t in range(1, teams + 1) if t != silent] or [silent]
    begun = [silent] * g.randint(2, 12)
    return (begun + [g.choice(others) for _ in range(length)])[:length]


def in_lockstep(g, teams, length):
    """Two teams step in turn, which makes them meet at the same node."""
    pair = [g.randint(1, teams), g.randint(1, teams)]
    return [pair[i % 2] if g.random() < 0.9 else g.randint(1, teams) for i in range(length)]


SCHEDULES = [at_random, round_robin, in_bursts, one_slow, one_silent, in_lockstep]


def a_schedule(g, teams, length=None):
    if length is None:
        length = g.choice([0, 1, 5, 17, 40, 100, 300, 1000])
    return g.choice(SCHEDULES)(g, teams, length)


# ---- Layouts, from numbers to bytes

def plain(header, schedule):
    return b'%s\n%s\n' % (joined(header), joined(schedule))


def joined(numbers):
    return b' '.join(b'%d' % n for n in numbers)


NOT_LINE_ENDS = [b for b in range(256) if b != 10]


def some_bytes(g):
    """Any bytes but the line end, for the inside of a comment."""
    return bytes(g.choice(NOT_LINE_ENDS) for _ in range(g.randint(0, 30)))


def a_comment(g):
    words = [b'', b' week 3', b'# # 1 2 3', b'=SUM(A1:A9)', b' 99999999999 x -1', b'\r', b'\x00']
    return b'#' + (g.choice(words) if g.random() < 0.8 else some_bytes(g))


def a_gap(g, may_end_line):
    """What parts two numbers: blanks, and where they are allowed line ends and comments."""
    blanks = b''.join(g.choice([b' ', b'  ', b'\t', b'\r', b' \t']) for _ in range(g.randint(1, 2)))
    if not may_end_line or g.random() < 0.4:
        return blanks
    if g.random() < 0.3:
        return g.choice([b'', b' ']) + a_comment(g) + b'\n'
    return g.choice([b'\n', b'\r\n', b'\n\n', b' \n\t\n'])


def messy(g, header, schedule):
    """The same numbers with every kind of gap, and a header that comes late."""
    text = b''.join(g.choice([b'\n', b' \n', a_comment(g) + b'\n']) for _ in range(g.randint(0, 3)))
    text += g.choice([b'', b' ', b'\t'])
    text += b''.join(b'%d%s' % (n, a_gap(g, False)) for n in header[:-1]) + b'%d' % header[-1]
    text += g.choice([b'', b' ', b'\r', a_comment(g), b'  ' + a_comment(g)]) + b'\n'
    text += b''.join(b'%d%s' % (n, a_gap(g, True)) for n in schedule)
    return text + g.choice([b'', b'\n', a_comment(g), b'\n\n', b' '])


def filled(text, length):
    """The text brought to a wanted length by a comment at its end."""
    return text + b'#' * (length - len(text))


# ---- Kinds of texts that are good

def good_plain(g):
    header = a_header(g)
    return plain(header, a_schedule(g, header[2]))


def good_messy(g):
    header = g.choice([a_header, a_stealing_header])(g)
    return messy(g, header, a_schedule(g, header[2]))


def good_stealing(g):
    header = a_stealing_header(g)
    length = g.choice([60, 200, 600])
    return plain(header, a_schedule(g, header[2], length))


def good_crowded(g):
    """A few sheets and many teams, so that most marks come late or find no room."""
    header = [0, g.randint(2, 12), g.choice([3, 8, 20]), g.choice([1, 2, 4]), g.randint(3, 11)] + a_program(g)
    return plain(header, a_schedule(g, header[2], 400))


def good_top(g):
    """Sheets up to the greatest number, where a sum of 32 bits would wrap."""
    size = g.choice([1, 2, 3, 9, 30, 5000, NUMBER_LIMIT])
    header = [NUMBER_LIMIT - size, NUMBER_LIMIT, g.randint(1, 4), g.choice([2, 3, 16, CAP_LIMIT]), g.randint(1, 9)] + a_program(g)
    return plain(header, a_schedule(g, header[2], 200))


def good_finished(g):
    """Round after round until every team has stopped."""
    header = a_stealing_header(g)
    header[1] = header[0] + g.randint(0, 60)
    return plain(header, round_robin(g, header[2], header[2] * 150)[:20000])


def good_long(g):
    """As long as a text may be, or a little shorter."""
    header = g.choice([a_header, a_stealing_header])(g)
    text = plain(header, a_schedule(g, header[2], 33000))
    wanted = TEXT_LIMIT - g.choice([0, 0, 1, 2, 500])
    # The last number is cut off with the blank before it, so that none is cut in two.
    text = text[:wanted - 1].rpartition(b' ')[0]
    return filled(text + b'\n', wanted)


def good_padded(g):
    """Every number with leading zeros, most of them up to the ten digits that one may have."""
    header = g.choice([a_header, a_stealing_header])(g)
    numbers = [b'%0*d' % (g.choice([2, 9, 10, 10, 10]), n) for n in header + a_schedule(g, header[2])]
    head = len(header)
    return b' '.join(numbers[:head]) + b'\n' + b' '.join(numbers[head:]) + b'\n'


def good_windows(g):
    """A text as it comes from a spreadsheet: tabs between the numbers, CR LF at each line's end, some lines with nothing but a remark."""
    header = a_stealing_header(g)
    rows = [header] + [a_schedule(g, header[2], g.randint(0, 12)) for _ in range(g.randint(1, 40))]
    lines = [b'\t'.join(b'%d' % n for n in row) for row in rows]
    remarks = [a_comment(g) if g.random() < 0.3 else b'' for _ in lines]
    return b''.join(line + b'\t' + remark + b'\r\n' for line, remark in zip(lines, remarks))


def good_commented(g):
    """A comment on every line, short or of some thousand bytes, with numbers in it that do not count."""
    header = a_stealing_header(g)
    text = joined(header) + b' # the five numbers, or six\n'
    for team in a_schedule(g, header[2], 120):
        text += b'%d' % team + a_comment(g) + g.choice([b'', b' 9' * g.choice([1, 40, 1500])]) + b'\n'
    return text[:g.choice([TEXT_LIMIT, 9000])]


def good_stopped(g):
    """Few sheets, and steps that go on long after every team has stopped."""
    header = [0, g.randint(0, 9), g.choice([1, 2, 5, TEAMS_LIMIT]), g.choice([1, 4, CAP_LIMIT]), g.choice([1, 3, 7, 63])] + a_program(g)
    return plain(header, round_robin(g, header[2], g.choice([500, 3000, 20000])))[:TEXT_LIMIT - 2].rpartition(b' ')[0] + b'\n'


def good_bare(g):
    """Only a header, in every way that a text can end after it."""
    end = g.choice([b'', b'\n', b'\r\n', b' ', b'#', b'# end', b'\n\n\n', b'\n# end'])
    return joined(a_header(g)) + end


# ---- Kinds of texts that are damaged, or at some limit

def any_good(g):
    return g.choice([good_plain, good_messy, good_stealing, good_bare])(g)


def a_place(g, text):
    """A place in the text, at its beginning as often as anywhere."""
    return g.randint(0, min(len(text), g.choice([12, 40, len(text)])))


BYTES = [bytes([b]) for b in range(256)]
TELLING = [b'#', b'\n', b'\r', b'\t', b' ', b'0', b'9', b'-', b'+', b'.', b',', b'x', b'\x00', b'\x0b',
           b'\x0c', b'\x08', b'\x0e', b'/', b':', b'"', b'$', b'!', b'\x7f', b'\x80', b'\xa0', b'\xff']


def telling_byte(g):
    """A byte beside those that are allowed, where no comment can hide it."""
    header = a_header(g)
    text = plain(header, a_schedule(g, header[2], 12))
    at = a_place(g, text)
    return text[:at] + g.next_of(TELLING) + text[at:]


def one_byte_off(g):
    text, byte = any_good(g), g.choice([g.choice(BYTES), g.choice(TELLING)])
    at = a_place(g, text)
    return g.choice([text[:at] + byte + text[at:], text[:at] + byte + text[at + 1:],
                     text[:at] + text[at + 1:]])


def damaged_late(g):
    """A long text with one wrong byte at its end, or near it."""
    text = bytearray(good_long(g).rstrip(b'#'))
    text[-g.choice([1, 1, 2, 3, 7])] = g.choice(b'x-,\x00\xff')
    return bytes(text)


def cut_short(g):
    text = any_good(g)
    return text[:a_place(g, text)]


def odd_number(g):
    """Numbers at the limits of digits and of size, in the header or the schedule."""
    odd = g.next_of([b'0000000005', b'00000000005', b'0000000000', b'00000000000', b'2147483647',
                     b'2147483648', b'4294967297', b'9999999999', b'10000000000', b'99999999999x',
                     b'2147483648x', b'000', b'007', b'1' * 40, b'18446744073709551617'])
    words = joined(a_header(g)).split(b' ')
    rest = joined(a_schedule(g, 1, 20)).split(b' ')
    where = g.choice([words, words, rest])
    where[g.randrange(len(where))] = odd
    return b' '.join(words) + b'\n' + b' '.join(rest) + g.choice([b'\n', b''])


def header_count(g):
    """A header of none to eight numbers, on the first line or after others."""
    numbers = ([0, 5, 2, 4, 7, g.randint(0, 3), 1, 1])[:g.randint(0, 8)]
    before = b'# plan\n' * g.randint(0, 3)
    return before + joined(numbers) + g.choice([b'', b'\n', b'\n1 1 2\n', b'\n0 5 2 4 7\n1 2\n'])


def header_limits(g):
    """Each header number on its limits and one beyond them."""
    header = [3, 90, 2, 4, 7, 2]
    at, value = g.next_of([(0, 90), (0, 91), (1, 3), (1, 2), (1, NUMBER_LIMIT), (2, 0), (2, 1), (2, 32),
                           (2, 33), (3, 0), (3, 1), (3, 4096), (3, 4097), (4, 0), (4, 1), (4, 1023),
                           (4, 1024), (5, 0), (5, 1), (5, 2), (5, 3), (5, NUMBER_LIMIT)])
    header[at] = value
    if at < 5 and g.random() < 0.5:
        header.pop()
    return b'\n' * g.randint(0, 2) + plain(header, [1, 1, 1, 1] if g.random() < 0.8 else [1, 2])


def team_limits(g):
    header = a_header(g)
    schedule = a_schedule(g, header[2], 30)
    for _ in range(g.randint(1, 2)):
        schedule[g.randrange(30)] = g.choice([0, header[2], header[2] + 1, NUMBER_LIMIT])
    return g.choice([plain(header, schedule), messy(g, header, schedule)])


def length_limits(g):
    """Texts about the greatest length, some with another fault inside."""
    text = any_good(g)[:60000] + g.choice([b'', b'', b'\n', b'\nx', b'\n99999999999', b'\n0'])
    return filled(text, g.choice([65534, 65535, 65536, 65537, 70000]))


def many_numbers(g):
    """The greatest count of numbers that a text can hold, most of them refused."""
    header = g.choice([b'0 9 1 1 1\n', b'0 9 9 1 3\n', b''])
    return (header + b'1 ' * 33000)[:g.choice([65535, 65534, 65536])]


def nothing(g):
    return g.next_of([b'', b'\n', b' ', b'\r', b'#', b'# 0 5 2 4 7', b'# 0 5 2 4 7\n#1 1\n', b'\n\n\t\n',
                      b'x', b'\x00', b'0', b'#\x00\xff\n', b' \n99999999999'])


FAULTS = {20: b'5 4 2 4 7\n', 22: b'1 1\n1 x\n', 23: b'1\n2147483648 1\n', 24: b'0 5 2 4\n', 26: b'1\n1 1 0\n'}


def two_faults(g):
    """Two different faults in one text, in either order where both orders exist."""
    first = g.choice([20, 24, 0])
    others = g.sample([22, 23, 26], 2)
    head = FAULTS.get(first, b'0 5 2 4 7\n')
    text = b'# two\n' * g.randint(0, 2) + head + FAULTS[others[0]] + FAULTS[others[1]]
    if g.random() < 0.2:
        text = FAULTS[g.choice([22, 23])] + text
    return filled(text, 65536) if g.random() < 0.1 else text


KINDS = [good_plain, good_messy, good_stealing, telling_byte, good_crowded, good_finished, good_bare,
         one_byte_off, header_limits, good_messy, good_stealing, cut_short, odd_number, header_count,
         good_top, team_limits, good_stealing, length_limits, nothing, two_faults, one_byte_off, good_long,
         telling_byte, good_crowded, good_messy, odd_number, two_faults, header_limits, many_numbers,
         good_padded, good_windows, good_commented, good_stopped, damaged_late]


def earlier_of(kind, number):
    rounds, place = divmod(number, len(KINDS))
    return rounds * KINDS.count(kind) + KINDS[:place].count(kind)


def write_texts(seed, count, folder):
    for i in range(count):
        kind = KINDS[i % len(KINDS)]
        text = kind(Chance(seed, i, earlier_of(kind, i)))
        with open(os.path.join(folder, '%05d-%s.txt' % (i, kind.__name__)), 'wb') as out:
            out.write(text)


def main():
    if len(sys.argv) != 4:
        sys.exit('usage: python3 test/texts.py SEED COUNT DIR')
    write_texts(sys.argv[1], int(sys.argv[2]), sys.argv[3])


if __name__ == '__main__':
    main()
