#!/usr/bin/env python3
"""Tables that no file gives, and what document 01 answers to those who would write them; and what it writes of the artifacts here.

usage: tables.py [--check]

Writes tables.txt, written.txt and rewritten.txt beside this file, the answers by writing.py; with --check only says whether they hold
what would be written, and exits with 1 where they do not.

A case of tables.txt is its name behind #, then lines that make what is lent, beginning with that of an earlier one:
    from NAME       the words, tables and text of the base of this name, which stands in front behind =
    h K W           word K of the heading becomes W
    t T K W         word K of table T becomes W
    n T N           table T has N words: the others are cut off, or zeros are put behind
    r T N W..       N rows more of these words behind table T
    x BYTES         more text, in hexadecimal
    f N B           N bytes B more behind the text
    c N             the text is cut to N bytes
    w MASK STRIP ROOM   it is to be written so
An answer in written.txt is the name again and a line for each w: the refusal's number or 0, both values, and of what is written the
bytes in hexadecimal, or =N where they are those of the Nth line that shows any, or @ and the digest of many.
rewritten.txt has a line for each artifact of cases.txt that is accepted: of its tables written, kept and then stripped, the length and
the digest, and its name. A digest is FNV-1a of 64 bits.
"""
import artifacts
from reference import (ASSIGNS, CASES, CHAINS, CONSTANTS, CUSTOMS, FUNCTIONS, INPUTS, LIMIT, NAMES, PARAMETERS, RANGES, STEPS, SWITCHES, TOKENS,
                       WIDTHS, read)
from stored import store
from writing import Model, write

MOST = 2 ** 64 - 1
SHOWN = 400


# ── the lines ──

def head(k, word):
    return f'h {k} {word}'


def at(table, row, k, word):
    return f't {table + 1} {WIDTHS[table] * row + k} {word}'


def words(table, n):
    return f'n {table + 1} {n}'


def rows(table, n, *row):
    return f'r {table + 1} {n} ' + ' '.join(map(str, row))


def used(table, n):
    return head(18 + table, n)


def text(data):
    return 'x ' + data.hex()


def made(base, lines):
    """What the lines make of heading, tables and text."""
    heading, tables, data = list(base[0]), [list(table) for table in base[1]], bytearray(base[2])
    for line in lines:
        verb, *given = line.split()
        numbers = [] if verb == 'x' else list(map(int, given))
        if verb == 'h':
            heading[numbers[0]] = numbers[1]
        elif verb == 't':
            tables[numbers[0] - 1][numbers[1]] = numbers[2]
        elif verb == 'n':
            table = tables[numbers[0] - 1]
            table[:] = (table + [0] * numbers[1])[:numbers[1]]
        elif verb == 'r':
            tables[numbers[0] - 1] += numbers[2:] * numbers[1]
        elif verb == 'x':
            data += bytes.fromhex(given[0])
        elif verb == 'f':
            data += bytes([numbers[1]]) * numbers[0]
        elif verb == 'c':
            del data[numbers[0]:]
    return heading, tables, data


def digest(data):
    """FNV-1a."""
    hash = 0xCBF29CE484222325
    for byte in data:
        hash = (hash ^ byte) * 0x100000001B3 & MOST
    return f'{hash:016x}'


# ── the bases ──

USED = [4, 17, 2, 1, 3, 3, 2, 2, 1, 1, 2, 2, 2]
RICH = artifacts.RICH
EMPTY = ([0] * 32, [[] for _ in WIDTHS], b'')


def rich():
    """All sections, as they are read, in tables that fit exactly. Two rows are added that no line of an artifact gives: a pointer of the
    other kind, and a custom site without inputs."""
    answer, tables = read(RICH, 1, [n * width for n, width in zip(USED, WIDTHS)])
    lines = [head(k, word) for k, word in enumerate(answer) if word]
    for table, (held, width) in enumerate(zip(tables, WIDTHS)):
        lines += [rows(table, 1, *held[k:k + width]) for k in range(0, len(held), width)]
    more = [rows(CONSTANTS, 1, 13, 0x81, 0, 110, 3, 0, 0, 0), head(17, 12), used(CONSTANTS, 18), rows(CUSTOMS, 1, 8, 9, 0), used(CUSTOMS, 2)]
    return lines + more + [text(RICH)]


LINES = {'least': [], 'rich': rich()}
BASES = {name: made(EMPTY, lines) for name, lines in LINES.items()}
HEADING, TABLES, TEXT = BASES['rich']
END = len(TEXT)

# the spans outside the tables, by their place in the heading
SOURCE, BLOB, CODE, POSITIONS = 6, 8, 10, 12
STRING, ARRAY, INNER, MAP, ENTRY, EMPTY_KEY, BLOB_CONSTANT, POINTER, NORMAL = 5, 6, 8, 10, 11, 12, 12, 15, 17
SPANS = [('source name', lambda span: [head(SOURCE, span[0]), head(SOURCE + 1, span[1])]),
         ('code', lambda span: [head(CODE, span[0]), head(CODE + 1, span[1])]),
         ('position table', lambda span: [head(POSITIONS, span[0]), head(POSITIONS + 1, span[1])]),
         ('name blob', lambda span: [head(BLOB, span[0]), head(BLOB + 1, span[1])])]
SPANS += [(name, lambda span, table=table, row=row, k=k: [at(table, row, k, span[0]), at(table, row, k + 1, span[1])]) for name, table, row, k in
          [('string', CONSTANTS, STRING, 3), ('blob', CONSTANTS, BLOB_CONSTANT, 3), ('name of a pointer', CONSTANTS, POINTER, 3),
           ('key', CONSTANTS, ENTRY, 6), ('token', TOKENS, 1, 0), ('token that assigns', ASSIGNS, 0, 0), ('token that is applied', ASSIGNS, 0, 3)]]


# ── the cases ──

STORED = []
KEPT, STRIPPED = (1, 0, 600), (1, 1, 600)


def case(name, base, *lines, rule=None, ways=(KEPT,)):
    """`rule` is the lowest broken one, 0 where all hold: it is said here and reckoned by writing.py."""
    model = Model(*made(BASES[base], lines))
    answers = [write(model, *way) for way in ways]
    for answer, _ in answers:
        told = answer[1] if answer[0] == 15 else 0
        assert rule is None or told == rule, f'{name}: rule {told} is broken, and not {rule}'
    STORED.append((name, base, lines, ways, answers))


def accepted(name, base, *lines, ways=(KEPT, STRIPPED)):
    case(name, base, *lines, rule=0, ways=ways)
    assert all(answer[0] == 0 for answer, _ in STORED[-1][4]), f'{name}: the room is too small'


def whole():
    accepted('the least tables', 'least')
    accepted('all sections', 'rich')
    for way, name in ((0, 'kept'), (1, 'stripped')):
        size = write(Model(*BASES['rich']), 1, way, LIMIT)[0][1]
        for room in (0, 1, size - 1, size, size + 1, size + 70):
            case(f'all sections, {name}, a room of {room} for {size} bytes', 'rich', rule=0, ways=[(1, way, room)])
    case('the least tables in no room, 42, 43 and 44 bytes', 'least', rule=0, ways=[(0, way, room) for way in (0, 1) for room in (0, 42, 43, 44)])
    case('any way but 0 strips', 'rich', rule=0, ways=[(1, way, 300) for way in (0, 1, 2, 0x80, 0xFF)])
    accepted('the words of a refusal and the last word are not looked at', 'rich', *[head(k, MOST) for k in (0, 1, 2, 31)])
    accepted('caps and debug id of all ones', 'least', head(3, 2 ** 32 - 1), head(4, MOST), head(5, MOST))
    accepted('a heading of the largest numbers', 'least', head(14, 2 ** 32 - 1), head(15, 2 ** 32 - 1), head(16, 0xFFFF))


def lengths():
    for table, width in enumerate(WIDTHS):
        if width > 1:
            accepted(f'table {table + 1}: words that make no row stand behind', 'rich', *[f'n {table + 1} {len(TABLES[table]) + width - 1}'],
                     *[f't {table + 1} {len(TABLES[table]) + k} {MOST}' for k in range(width - 1)])
            case(f'table {table + 1}: the last row lacks a word', 'rich', words(table, len(TABLES[table]) - 1), rule=1)
        accepted(f'table {table + 1}: a row that is not used is not looked at', 'rich', rows(table, 1, *[MOST] * width))


def rule_1():
    for table in range(13):
        case(f'table {table + 1}: one row more is used than there are', 'rich', used(table, BASES['rich'][0][18 + table] + 1), rule=1)
        case(f'table {table + 1}: 2^64 - 1 rows are used', 'rich', used(table, MOST), rule=1)
        case(f'table {table + 1}: 2^61 rows of no table are used', 'least', used(table, 2 ** 61), rule=1)
    for name, table, k, of in [('steps', CHAINS, 6, STEPS), ('cases', SWITCHES, 0, CASES), ('ranges', SWITCHES, 1, RANGES), ('inputs', CUSTOMS, 2, INPUTS),
                               ('parameters', FUNCTIONS, 3, PARAMETERS)]:
        share, count = TABLES[table][k], HEADING[18 + of]
        case(f'{name}: a share is one too many', 'rich', at(table, 0, k, share + 1), rule=1)
        case(f'{name}: a share is one too few', 'rich', at(table, 0, k, share - 1), rule=1)
        case(f'{name}: one row fewer is used than is shared out', 'rich', used(of, count - 1), rule=1)
        case(f'{name}: a share of 2^64 - 1', 'rich', at(table, 0, k, MOST), rule=1)
        case(f'{name}: shares that come to their count when wrapped', 'rich', at(table, 0, k, MOST), at(table, 1, k, count + 1), rule=1)
        case(f'{name}: two shares of 2^63, which come to 0 when wrapped', 'rich', at(table, 0, k, 2 ** 63), at(table, 1, k, 2 ** 63), rule=1)
    case('no switch, and a case', 'least', rows(CASES, 1, 0, 0), used(CASES, 1), rule=1)
    accepted('a chain without its steps behind one with all of them', 'rich', at(CHAINS, 0, 6, 3), at(CHAINS, 2, 6, 0))


def trees():
    for name, tops in [('one too many', 13), ('one too few', 11), ('none', 0), ('2^64 - 1', MOST), ('as many as rows', 18)]:
        case(f'top constants: {name}', 'rich', head(17, tops), rule=1)
    case('a top constant and no row', 'least', head(17, 1), rule=1)
    case('a row and no top constant', 'least', rows(CONSTANTS, 1, *[0] * 8), used(CONSTANTS, 1), rule=1)
    for name, row in [('an array', ARRAY), ('a map', MAP), ('a pointer', POINTER), ('an inner array', INNER)]:
        count = TABLES[CONSTANTS][8 * row + 5]
        for what, n in [('one item too many', count + 1), ('one item too few', count - 1), ('2^64 - 1 items', MOST), ('2^63 items', 2 ** 63)]:
            case(f'{name} of {what}', 'rich', at(CONSTANTS, row, 5, n), rule=1)
    case('items that are owed to 2^64 and come to their count when wrapped', 'rich', at(CONSTANTS, ARRAY, 5, MOST), at(CONSTANTS, MAP, 5, 5), rule=1)
    case('2^64 - 1 top constants, and an array that wraps them round', 'least', rows(CONSTANTS, 1, 7, 0, 0, 0, 0, 2, 0, 0), used(CONSTANTS, 1),
         head(17, MOST), rule=1)
    case('a constant less, which its parent awaits', 'rich', used(CONSTANTS, 17), rule=1)
    case('an unknown tag owns no items: what it seems to own is one too many', 'rich', at(CONSTANTS, INNER, 0, 0x0C), rule=1)
    case('an unknown tag, its count not looked at', 'rich', at(CONSTANTS, STRING, 0, 0x0C), at(CONSTANTS, STRING, 5, 3), rule=5)
    case('a tag that is an array in its low byte owns no items', 'rich', at(CONSTANTS, INNER, 0, 0x107), rule=1)


def rule_2():
    for name, put in SPANS:
        for what, span in [('past the end by one', (END, 1)), ('that begins behind the end, empty', (END + 1, 0)), ('with a start of 2^64 - 1', (MOST, 1)),
                           ('with a size of 2^64 - 1', (1, MOST)), ('of 2^63 and 2^63', (2 ** 63, 2 ** 63)), ('of 2^64 - 1, twice', (MOST, MOST))]:
            case(f'{name}: a span {what}', 'rich', *put(span), rule=2)
        if name != 'name blob':
            accepted(f'{name}: an empty span at the end', 'rich', *put((END, 0)))
    case('the text is cut by a byte', 'rich', f'c {END - 1}', rule=2)
    case('no text', 'rich', 'c 0', rule=2)
    accepted('more text than is used', 'rich', text(b'\xff\xfe'))
    accepted('spans that lie over each other', 'rich', *SPANS[4][1]((0, 4)), *SPANS[5][1]((0, END)), *SPANS[8][1]((2, 2)), *SPANS[1][1]((0, 9)))
    accepted('keys of those that are no entries are not looked at', 'rich', *[at(CONSTANTS, row, k, MOST) for row in range(18) if row not in (11, 12) for k in (6, 7)])
    accepted('an entry that is a map, whose own entries have keys', 'least', rows(CONSTANTS, 1, 8, 0, 0, 0, 0, 1, MOST, MOST), rows(CONSTANTS, 1, 8, 0, 0, 0, 0, 2, 0, 1),
             rows(CONSTANTS, 1, 1, 0, 0, 0, 0, 0, 1, 1), rows(CONSTANTS, 1, 2, 0, 0, 0, 0, 0, 0, 2), used(CONSTANTS, 4), head(17, 1), text(b'ab'))
    for row, what in [(1, 'an entry'), (2, 'an item of an array that is an entry'), (3, 'the entry behind that array'), (4, 'a constant behind the map')]:
        case(f'a bad key of {what}', 'least', rows(CONSTANTS, 1, 8, 0, 0, 0, 0, 2, 0, 0), rows(CONSTANTS, 1, 7, 0, 0, 0, 0, 1, 0, 0), rows(CONSTANTS, 3, *[0] * 8),
             used(CONSTANTS, 5), head(17, 2), at(CONSTANTS, row, 6, 1), rule=2 if row in (1, 3) else 0)


def rule_3():
    bad, cut, surrogate, overlong = (END, 1), (END + 1, 2), (END + 4, 3), (END + 7, 2)
    more = text(b'\xff' + '€'.encode() + b'\xed\xa0\x80\xc0\x80')
    for name, put in SPANS:
        if name in ('code', 'blob'):
            accepted(f'{name}: any bytes', 'rich', more, *put(bad))
        elif name not in ('name blob', 'position table'):
            for what, span in [('FF', bad), ('a letter that is cut', cut), ('a surrogate', surrogate), ('an overlong form', overlong)]:
                case(f'{name}: {what}', 'rich', more, *put(span), rule=3)
            accepted(f'{name}: a letter of three bytes', 'rich', more, *put((END + 1, 3)))
    accepted('a unit with the span of bytes that are no text', 'rich', more, at(CONSTANTS, 0, 3, END), at(CONSTANTS, 0, 4, 1))


def rule_4():
    last = TABLES[NAMES][-1]
    for name, lines in [('ends fall', [at(NAMES, 1, 0, 9)]), ('the last end is short', [at(NAMES, 3, 0, last - 1)]), ('the last end is long', [at(NAMES, 3, 0, last + 1)]),
                        ('the last end is 2^64 - 1', [at(NAMES, 3, 0, MOST)]), ('the last end is 2^32 higher', [at(NAMES, 3, 0, last + 2 ** 32)]),
                        ('an end of 2^64 - 1 before others', [at(NAMES, 0, 0, MOST)]), ('no name, and a blob', [used(NAMES, 0)]), ('one name fewer', [used(NAMES, 3)]),
                        ('names, and no blob', [head(BLOB + 1, 0)]), ('a blob that is cut', [head(BLOB + 1, 14)]),
                        ('a blob that is not UTF-8', [head(BLOB, END), text(b'\xff' * 15)]), ('a blob that begins within a letter', [head(BLOB, 60), head(BLOB + 1, 15)])]:
        case('names: ' + name, 'rich', *lines, rule=4)
    accepted('names: ends that stand still', 'rich', *[at(NAMES, k, 0, last) for k in range(4)])
    accepted('names: an end within a letter', 'rich', at(NAMES, 2, 0, 11))
    accepted('names: none, and no blob', 'rich', used(NAMES, 0), head(BLOB + 1, 0))
    accepted('names: a hundred of them, all empty', 'least', rows(NAMES, 100, 0), used(NAMES, 100))


def rule_5():
    for word in (0x0C, 0x0E, 0x80, 0x100, 0x106, 2 ** 32, 2 ** 63, MOST):
        case(f'constant: tag {word:X}', 'rich', at(CONSTANTS, 0, 0, word), rule=5)
    for word in (0, 1, 0x80, 0x83, 0x181, 0x8100, 2 ** 32 + 0x82, MOST):
        case(f'pointer: kind {word:X}', 'rich', at(CONSTANTS, NORMAL, 1, word), rule=5)
    for name, table, k in [('root', CHAINS, 0), ('tail', CHAINS, 7), ('step', STEPS, 0)]:
        most = 4 if name == 'root' else 3
        for word in (0, most + 1, 0x101, 2 ** 32 + 1, MOST):
            case(f'{name}: tag {word:X}', 'rich', at(table, 1, k, word), rule=5)
    for mask, word in [(1, 2), (1, 3), (0, 1), (0xFE, 1), (0xFF, 0x100), (1, 0x101), (0xFF, 2 ** 32), (0xFF, MOST)]:
        case(f'flags {word:X} under the mask {mask:02X}', 'rich', at(STEPS, 0, 1, word), at(STEPS, 2, 1, 0), rule=5, ways=[(mask, 0, 600)])
    for mask, word in [(0, 0), (1, 1), (2, 2), (3, 2), (0xFF, 0xFF), (0x80, 0x80)]:
        case(f'flags {word:X} under the mask {mask:02X} are known', 'rich', at(STEPS, 0, 1, word), at(STEPS, 2, 1, 0), rule=0, ways=[(mask, 0, 600), (mask, 1, 600)])
    for word in (2, 0x100, 2 ** 32, MOST):
        case(f'access {word:X}', 'rich', at(FUNCTIONS, 1, 1, word), rule=5)


def tower(*row):
    """Rows of lists around each other, and around what is asked for."""
    return lambda n, *inner: [rows(CONSTANTS, n, *row), *(inner or [rows(CONSTANTS, 1, *[0] * 8)])]


def rule_6():
    array, empty = (7, 0, 0, 0, 0, 1, 0, 0), (7, 0, 0, 0, 0, 0, 0, 0)
    for name, row in [('arrays', array), ('maps', (8, 0, 0, 0, 0, 1, 0, 0)), ('curried lists', (13, 0x81, 0, 0, 0, 1, 0, 0))]:
        for n in (63, 64, 65, 66):
            case(f'a unit under {n} {name}', 'least', *tower(*row)(n), used(CONSTANTS, n + 1), head(17, 1), rule=6 if n > 64 else 0, ways=[KEPT, STRIPPED][:1 if n > 64 else 2])
    accepted('an empty array under 64 arrays', 'least', *tower(*array)(64, rows(CONSTANTS, 1, *empty)), used(CONSTANTS, 65), head(17, 1))
    case('an array of one under 64 arrays', 'least', *tower(*array)(64, rows(CONSTANTS, 1, *array), rows(CONSTANTS, 1, *[0] * 8)), used(CONSTANTS, 66), head(17, 1), rule=6)
    for n in (1000, 100_000):
        case(f'a unit under {n} arrays', 'least', *tower(*array)(n), used(CONSTANTS, n + 1), head(17, 1), rule=6)
    case('a unit under 10000 maps', 'least', *tower(8, 0, 0, 0, 0, 1, 0, 0)(10_000), used(CONSTANTS, 10_001), head(17, 1), rule=6)
    case('a bad key under 10000 maps', 'least', *tower(8, 0, 0, 0, 0, 1, 0, 0)(10_000), used(CONSTANTS, 10_001), head(17, 1), at(CONSTANTS, 10_000, 7, 1), rule=2)
    deep = tower(*array)(64)
    accepted('64 levels, twice', 'least', *deep, *deep, used(CONSTANTS, 130), head(17, 2))
    case('64 levels, then 65', 'least', *deep, *tower(*array)(65), used(CONSTANTS, 131), head(17, 2), rule=6)
    accepted('64 levels in an array, and a unit behind them', 'least', rows(CONSTANTS, 1, 7, 0, 0, 0, 0, 2, 0, 0), *tower(*array)(63), rows(CONSTANTS, 1, *[0] * 8),
             used(CONSTANTS, 66), head(17, 1))
    case('a unit, and 64 levels in an array', 'least', rows(CONSTANTS, 1, 7, 0, 0, 0, 0, 2, 0, 0), rows(CONSTANTS, 1, *[0] * 8), *deep, used(CONSTANTS, 67), head(17, 1), rule=6)


def rules_7_and_8():
    for code in (0xD800, 0xDBFF, 0xDFFF, 0x110000, 2 ** 32 + 0x41, MOST):
        case(f'char {code:X}', 'rich', at(CONSTANTS, 4, 1, code), rule=7)
    for code in (0, 0x7F, 0x80, 0xD7FF, 0xE000, 0xFFFF, 0x10FFFF):
        accepted(f'char {code:X} is one', 'least', rows(CONSTANTS, 1, 5, code, 0, 0, 0, 0, 0, 0), used(CONSTANTS, 1), head(17, 1))
    for constant in (12, 13, 17, 18, 2 ** 32, 2 ** 32 + 3, MOST):
        case(f'a case of constant {constant}, of which there are 12 at the top', 'rich', at(CASES, 1, 1, constant), rule=8)
    accepted('a case of the last top constant', 'rich', at(CASES, 1, 1, 11))


# table, row, word, bits, and what it is
NUMBERS = [(ASSIGNS, 0, 2, 32, 'name that assigns'), (ASSIGNS, 0, 5, 32, 'name that is applied'), (CHAINS, 0, 1, 16, 'slot of a local'), (CHAINS, 0, 2, 32, 'name of a local'),
           (CHAINS, 1, 2, 32, 'name of a root'), (CHAINS, 1, 3, 16, 'line of a root'), (CHAINS, 1, 4, 16, 'column of a root'), (CHAINS, 2, 3, 16, 'line of this'),
           (CHAINS, 0, 5, 16, 'operand count'), (CHAINS, 0, 8, 32, 'operator'), (STEPS, 0, 2, 16, 'operand of an index'), (STEPS, 0, 7, 16, 'line of an index'),
           (STEPS, 0, 8, 16, 'column of an index'), (STEPS, 0, 9, 16, 'line of a bracket'), (STEPS, 0, 10, 16, 'column of a bracket'), (STEPS, 1, 3, 32, 'name of a property'),
           (STEPS, 1, 4, 32, 'getter'), (STEPS, 1, 5, 32, 'setter'), (STEPS, 1, 7, 16, 'line of a property'), (STEPS, 2, 3, 32, 'name of a method'), (STEPS, 2, 6, 8, 'argument count'),
           (STEPS, 2, 2, 16, 'operand of a method'), (STEPS, 2, 7, 16, 'line of a method'), (STEPS, 2, 8, 16, 'column of a method'), (SWITCHES, 0, 2, 32, 'default'),
           (CASES, 0, 0, 32, 'blocks'), (RANGES, 0, 2, 1, 'inclusive'), (RANGES, 0, 3, 32, 'target'), (CUSTOMS, 0, 0, 32, 'key'), (CUSTOMS, 0, 1, 32, 'state'),
           (INPUTS, 0, 0, 32, 'entry of an input'), (INPUTS, 0, 1, 32, 'end of an input'), (INPUTS, 0, 2, 16, 'slots of an input'), (INPUTS, 0, 3, 1, 'whether there is a literal'),
           (FUNCTIONS, 0, 0, 32, 'name of a function'), (FUNCTIONS, 0, 4, 32, 'entry of a function'), (FUNCTIONS, 0, 5, 32, 'end of a function'),
           (FUNCTIONS, 0, 6, 16, 'slots of a function'), (PARAMETERS, 0, 0, 32, 'parameter')]


def rule_9():
    for table, row, k, bits, name in NUMBERS:
        case(f'{name}: {bits} bits and one more', 'rich', at(table, row, k, 2 ** bits), rule=9)
        case(f'{name}: 2^64 - 1', 'rich', at(table, row, k, MOST), rule=9, ways=[STRIPPED])
    for k, bits, name in [(3, 32, 'caps'), (14, 32, 'entry of the main chunk'), (15, 32, 'its end'), (16, 16, 'its slots')]:
        case(f'{name}: {bits} bits and one more', 'rich', head(k, 2 ** bits), rule=9)
        case(f'{name}: 2^64 - 1', 'rich', head(k, MOST), rule=9, ways=[STRIPPED])
    accepted('every number as large as it may be', 'rich', *[at(table, row, k, 2 ** bits - 1) for table, row, k, bits, _ in NUMBERS], at(INPUTS, 0, 4, 0xFFFFFFFE))
    for name, table, row, k in [('a root', CHAINS, 1, 3), ('this', CHAINS, 2, 3), ('an index', STEPS, 0, 7), ('a bracket', STEPS, 0, 9), ('a property', STEPS, 1, 7), ('a method', STEPS, 2, 7)]:
        case(f'line 0 of {name}, column 1', 'rich', at(table, row, k, 0), at(table, row, k + 1, 1), rule=9, ways=[KEPT, STRIPPED])
        accepted(f'line 0 of {name}, column 0', 'rich', at(table, row, k, 0), at(table, row, k + 1, 0))
        for column in (0, 1):
            accepted(f'line 1 of {name}, column {column}', 'rich', at(table, row, k, 1), at(table, row, k + 1, column))
    accepted('a range that is not inclusive', 'rich', at(RANGES, 0, 2, 0))
    for literal in (0xFFFFFFFF, 2 ** 32, MOST):
        case(f'literal {literal:X}', 'rich', at(INPUTS, 0, 4, literal), rule=9)
        accepted(f'an absent literal kept as {literal:X}', 'rich', at(INPUTS, 1, 4, literal))
    case('this_type 2^32 and one more', 'rich', at(FUNCTIONS, 0, 2, 2 ** 32 + 1), rule=9)
    case('this_type 2^64 - 1', 'rich', at(FUNCTIONS, 0, 2, MOST), rule=9)
    accepted('this_type 2^32', 'rich', at(FUNCTIONS, 0, 2, 2 ** 32))
    accepted('signed numbers at both ends of their range', 'rich', at(CONSTANTS, 2, 1, 2 ** 63), at(CONSTANTS, 9, 1, 2 ** 63 - 1), at(CONSTANTS, 13, 1, MOST), at(RANGES, 0, 0, 2 ** 63),
             at(RANGES, 0, 1, 2 ** 63 - 1), at(CONSTANTS, POINTER, 2, MOST), at(CONSTANTS, 3, 1, MOST))


TABLES_OF_POSITIONS = [('that is cut', b'\x01\x07', 10), ('with a zero step', b'\x02\x05\x01\x01\x00\x02\x02', 10), ('with a byte behind', b'\x00\x00', 10),
                       ('with a sum above 32 bits', b'\x02\xff\xff\xff\xff\x0f\x01\x01\x01\x01\x01', 10), ('with a wide line', b'\x01\x00\x80\x80\x80\x80\x10\x00', 10),
                       ('of a number of eleven bytes', b'\x80' * 10 + b'\x00', 10), ('of no site', b'\x00', 0), ('of no site, padded', b'\x80\x00', 0),
                       ('with a site of line 0', b'\x01\x07\x00\x04', 0), ('with padded numbers', b'\x81\x00\x85\x80\x00\x81\x00\x82\x00', 0),
                       ('with a line above 16 bits', b'\x01\x00\x80\x80\x04\x01', 0), ('with a first step of zero', b'\x02\x00\x01\x01\x01\x01\x01', 0)]


def rule_10():
    for name, table, rule in TABLES_OF_POSITIONS:
        case('a position table ' + name, 'rich', text(table), head(POSITIONS, END), head(POSITIONS + 1, len(table)), rule=rule, ways=[KEPT, STRIPPED])
    accepted('no position table', 'rich', head(POSITIONS + 1, 0))


# what is around a span of code in the least tables, with its length of three bytes
AROUND = 45


def filled(n):
    return [f'f {n} 71', head(CODE, 0), head(CODE + 1, n)]


def rule_11():
    size = LIMIT - AROUND
    for name, lines in [('code', filled(size)), ('a blob', [f'f {size - 2} 255', rows(CONSTANTS, 1, 9, 0, 0, 0, size - 2, 0, 0, 0), used(CONSTANTS, 1), head(17, 1)]),
                        ('half a text, twice', [f'f {size // 2} 71', rows(TOKENS, 1, 0, size // 2 - 2), rows(TOKENS, 1, 1, size // 2 - 1), used(TOKENS, 2)])]:
        ways = [(1, 0, LIMIT), (1, 1, LIMIT + 9), (1, 0, LIMIT - 1), (1, 0, 0)] if name == 'code' else [(1, 0, LIMIT)]
        case(f'{name}: 1,048,576 bytes', 'least', *lines, rule=0, ways=ways)
        assert STORED[-1][4][0][0] == [0, LIMIT, 0], STORED[-1][4][0][0]
    for n in (size + 1, size + 2, 2 * LIMIT):
        case(f'code of {n} bytes', 'least', *filled(n), rule=11, ways=[(1, 0, 3 * LIMIT), (1, 1, 0)])
    case('a text of a megabyte, ten times', 'least', f'f {LIMIT} 71', rows(TOKENS, 10, 0, LIMIT), used(TOKENS, 10), rule=11)
    case('a blob of a megabyte, 20,000 times', 'least', f'f {LIMIT} 255', rows(CONSTANTS, 20_000, 9, 0, 0, 0, LIMIT, 0, 0, 0), used(CONSTANTS, 20_000), head(17, 20_000), rule=11)
    case('a hundred thousand names, and all in a megabyte', 'least', rows(NAMES, 100_000, 0), used(NAMES, 100_000), rule=0, ways=[(1, 0, LIMIT)])
    case('150,000 functions of seven bytes', 'least', rows(FUNCTIONS, 150_000, *[0] * 7), used(FUNCTIONS, 150_000), rule=11)
    in_the_way_asked(size)


def in_the_way_asked(size):
    """Too long kept, and not stripped: by the position table, and by the positions of a chain alone."""
    table = [text(b'\x01\x00\x01\x01'), head(POSITIONS, 0), head(POSITIONS + 1, 4)]
    lines = [*table, f'f {size} 71', head(CODE, 4), head(CODE + 1, size)]
    case('too long by its position table', 'least', *lines, rule=11, ways=[(1, 0, LIMIT + 9)])
    case('as long as may be without its position table', 'least', *lines, rule=0, ways=[(1, 1, LIMIT), (1, 1, LIMIT - 1)])
    chain = [rows(CHAINS, 1, 4, 0, 0, 300, 300, 0, 0, 1, 0), used(CHAINS, 1), *filled(size - 6)]
    case("too long by a chain's position", 'least', *chain, rule=11, ways=[(1, 0, LIMIT + 9)])
    case("as long as may be without a chain's position", 'least', *chain, rule=0, ways=[(1, 1, LIMIT), (1, 1, LIMIT - 1)])


# the words that each tag uses of a row; the others are not looked at
USES = {CONSTANTS: {0: '', 1: '', 2: '', 3: '1', 4: '1', 5: '1', 6: '34', 7: '5', 8: '5', 9: '34', 10: '12', 11: '12', 13: '12345'},
        CHAINS: {1: '12', 2: '', 3: '234', 4: '34'}, STEPS: {1: '2789a', 2: '34578', 3: '23678'}}


def garbage(table, row):
    """Lines that fill what a row does not use; keys of entries are used."""
    width = WIDTHS[table]
    kept = TABLES[table][width * row:width * (row + 1)]
    uses = {int(k, 16) for k in USES[table][kept[0]]} | {0}
    if table == CONSTANTS:
        uses |= {6, 7} if row in (ENTRY, EMPTY_KEY) else set()
        uses -= {2} if kept[:2] == [13, 0x81] else set()
    if table == CHAINS:
        uses |= {5, 6, 7} | ({8} if kept[7] == 3 else set())
    if table == STEPS:
        uses |= {1}
    return [at(table, row, k, MOST - k) for k in range(width) if k not in uses]


def unused():
    everything = []
    for table in (CONSTANTS, CHAINS, STEPS):
        for row in range(len(TABLES[table]) // WIDTHS[table]):
            lines = garbage(table, row)
            everything += lines
            accepted(f'table {table + 1}, row {row}: what its tag does not use is not looked at', 'rich', *lines, ways=[KEPT])
    accepted('a temporary root, of which the chain uses nothing more', 'rich', rows(CHAINS, 1, 2, MOST, MOST, MOST, MOST, 5, 0, 1, MOST), used(CHAINS, 4))
    accepted('what no tag uses is not looked at', 'rich', *everything, at(INPUTS, 1, 4, MOST))


# for each rule lines that break it and no lower one, in all sections, at places in front and at the end: a writer that judged row by
# row, or section by section, would find the higher of two rules first
TOWER = [rows(CONSTANTS, 65, 7, 0, 0, 0, 0, 1, 0, 0), rows(CONSTANTS, 1, *[0] * 8), used(CONSTANTS, 84), head(17, 13)]
BREAKS = {1: [[used(STEPS, 2)], [at(FUNCTIONS, 1, 3, 7)]],
          2: [[head(SOURCE + 1, MOST)], [at(CONSTANTS, ENTRY, 6, MOST)], [at(ASSIGNS, 0, 3, MOST)]],
          3: [[at(CONSTANTS, STRING, 3, 101), at(CONSTANTS, STRING, 4, 1)], [at(ASSIGNS, 0, 0, 101), at(ASSIGNS, 0, 1, 1)]],
          4: [[at(NAMES, 0, 0, 99)]],
          5: [[at(CONSTANTS, 0, 0, 0x0C)], [at(CHAINS, 1, 7, 9)], [at(FUNCTIONS, 0, 1, 2)]],
          6: [TOWER],
          7: [[at(CONSTANTS, 4, 1, 0xD800)]],
          8: [[at(CASES, 0, 1, 99)]],
          9: [[head(3, 2 ** 32)], [at(ASSIGNS, 0, 2, 2 ** 32)], [at(SWITCHES, 1, 2, 2 ** 32)], [at(PARAMETERS, 1, 0, 2 ** 32)]],
          10: [[head(POSITIONS + 1, 7)]],
          11: [[f'f {LIMIT} 71', head(CODE, END), head(CODE + 1, LIMIT)]]}


def pairs():
    for first, breaks in BREAKS.items():
        for k, lines in enumerate(breaks, 1):
            case(f'rule {first} is broken, way {k}', 'rich', *lines, rule=first, ways=[KEPT, STRIPPED, (1, 0, 0)])
            for second in range(first + 1, 12):
                for j, more in enumerate(BREAKS[second], 1):
                    case(f'rules {first} and {second} are broken, ways {k} and {j}', 'rich', *lines, *more, rule=first)
    case('all rules are broken', 'rich', *[line for breaks in BREAKS.values() for line in breaks[0]], rule=1)


# ── the files ──

SECTIONS = (whole, lengths, rule_1, trees, rule_2, rule_3, rule_4, rule_5, rule_6, rules_7_and_8, rule_9, rule_10, rule_11, unused, pairs)


def told(answer, out, shown):
    """The answer's line. Bytes that were shown before are named by where."""
    line = ' '.join(map(str, answer))
    if answer[0]:
        return line
    if len(out) > SHOWN:
        return f'{line} @{digest(out)}'
    if out in shown:
        return f'{line} ={shown.index(out) + 1}'
    shown.append(out)
    return f'{line} {out.hex()}'


def cases_and_answers():
    """The text of tables.txt and written.txt."""
    for section in SECTIONS:
        section()
    given, answered, shown = [], [], []
    for name, lines in LINES.items():
        given += ['= ' + name, *lines]
    for name, base, lines, ways, answers in STORED:
        given += ['# ' + name, 'from ' + base, *lines, *(f'w {mask} {strip} {room}' for mask, strip, room in ways)]
        answered += ['# ' + name, *(told(answer, out, shown) for answer, out in answers)]
    return ['\n'.join(side) + '\n' for side in (given, answered)]


def rewritten():
    """The text of rewritten.txt, and how many artifacts it has."""
    artifacts.lines()
    lines = []
    for name, mask, lengths, data in artifacts.CASES:
        answer, tables = read(data, mask, lengths)
        if answer[0] == 0:
            model = Model(answer + [0], tables, data)
            outs = [write(model, mask, strip, LIMIT)[1] for strip in (0, 1)]
            lines.append(' '.join([f'{len(out)} {digest(out)}' for out in outs] + [name]))
    return '\n'.join(lines) + '\n', len(lines)


def made_files():
    again, accepted = rewritten()
    files = dict(zip(('tables.txt', 'written.txt', 'rewritten.txt'), [*cases_and_answers(), again]))
    return files, f'{len(STORED)} cases of tables in {sum(len(ways) for _, _, _, ways, _ in STORED)} ways, and {accepted} artifacts'


if __name__ == '__main__':
    store(__doc__, made_files)
