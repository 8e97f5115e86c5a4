#!/usr/bin/env python3
"""Artifacts of our own, one for each section, tag, refusal, limit and order of tests, and what document 01 answers to each.

usage: artifacts.py [--check]

Writes cases.txt and answers.txt beside this file, the answers by reference.py; with --check only says whether both hold what
would be written, and exits with 1 where they do not. A case is its name behind #, then a line in hexadecimal: the flag mask, for
each of the thirteen tables how many words are lent (two bytes, low first), and the artifact. An answer is the name again, the
words of the answer, and a line for each table.
"""
from reference import WIDTHS, read
from stored import store


# ── how the file writes things ──

def num(n, size=0):
    """A number, in its shortest form or padded to so many bytes."""
    groups = [n >> shift & 0x7F for shift in range(0, max(n.bit_length(), 1), 7)]
    groups += [0] * (size - len(groups))
    return bytes([group | 0x80 for group in groups[:-1]] + groups[-1:])


def sig(z):
    return num(2 * z if z >= 0 else -2 * z - 1)


def text(t):
    data = t if isinstance(t, bytes) else t.encode()
    return num(len(data)) + data


def each(records):
    return num(len(records)) + b''.join(records)


HEADER = b'RGRN\x0b\x00\x08\x08' + bytes(4) + bytes(16)
EMPTY = b'\x00'
PARTS = dict(header=HEADER, source=EMPTY, names=b'\x00\x00', constants=EMPTY, tokens=EMPTY, assigns=EMPTY, chains=EMPTY, switches=EMPTY,
             customs=EMPTY, main=bytes(3), functions=EMPTY, code=EMPTY, positions=EMPTY, end=b'')


def file(**parts):
    """The least artifact, with some sections of one's own."""
    return b''.join({**PARTS, **parts}.values())


def names(*words):
    ends, at = [], 0
    for word in words:
        at += len(word.encode())
        ends.append(num(at))
    return each(ends) + text(''.join(words))


def chain(root=b'\x02', operands=b'\x00', steps=(), tail=b'\x01'):
    return root + operands + each(list(steps)) + tail


def function(name=0, access=0, this=0, parameters=(), chunk=bytes(3)):
    return num(name) + num(access) + num(this) + each([num(p) for p in parameters]) + chunk


def constants(*records):
    return file(constants=each(list(records)))


def under(n, kind=7):
    """A unit under so many arrays, maps or curried lists."""
    inner = b'\x00'
    for _ in range(n):
        inner = {7: b'\x07\x01' + inner, 8: b'\x08\x01' + text('k') + inner, 13: b'\x0d' + text('f') + b'\x01' + inner + b'\x81'}[kind]
    return inner


RICH = file(
    header=b'RGRN\x0b\x00\x08\x08' + b'\x03\x00\x00\x80' + bytes(range(1, 17)),
    source=text('radar.rhai'), names=names('rain', '', 'snow', 'größe'),
    constants=each([b'\x00', b'\x02', b'\x03' + sig(-300), b'\x04' + bytes(range(8)), b'\x05' + num(0x1F327), b'\x06' + text('dBZ'),
                    b'\x07\x02\x01\x07\x01\x03\x06', b'\x08\x02' + text('lo') + b'\x03\x05' + text('') + b'\x09' + text(b'\xff'),
                    b'\x0a' + sig(-1) + sig(1), b'\x0b' + sig(0) + sig(9), b'\x0d' + text('max') + b'\x01\x00\x82' + num(70000)]),
    tokens=each([text('+'), text('<<=')]), assigns=each([text('+=') + b'\x01' + text('+') + b'\x02']),
    chains=each([chain(b'\x01\x05\x02', b'\x03', [b'\x01\x01\x07' + b'\x09\x04' + b'\x09\x06', b'\x02\x00\x01\x02\x03' + b'\x00\x05'], b'\x03\x02'),
                 chain(b'\x03\x01\x02\x03'), chain(b'\x04\x00\x09', b'\x01', [b'\x03\x01\x01\x02\x07' + num(300) + num(300)], b'\x02')]),
    switches=each([each([b'\x05\x0a', b'\x06\x00']) + each([sig(-2) + sig(7) + b'\xff\x04']) + b'\x09', b'\x00\x00\x01']),
    customs=each([b'\x01\x02' + each([b'\x01\x02\x03\x07', b'\x04\x05\x06' + num(0xFFFFFFFF)])]),
    main=b'\x00\x20\x04', functions=each([function(1, 1, 5, (3, 2), b'\x20\x30\x02'), function(2, 0, 0, ())]),
    code=text(b'\x10\x20\x30'), positions=text(b'\x02\x00\x01\x01\x05\x02\xac\x02'))


# ── the cases ──

AMPLE = [20 * width for width in WIDTHS]
CASES = []


def case(name, data, mask=1, lengths=AMPLE):
    CASES.append((name, mask, list(lengths), data))


def lent(table, words):
    """Ample tables, and so many words of one."""
    lengths = list(AMPLE)
    lengths[table - 1] = words
    return lengths


def headers():
    case('the least artifact', file())
    case('an empty file', b'')
    case('XYZ', b'XYZ')
    case('XYZW', b'XYZW')
    case('magic in small letters', b'rgrn' + file()[4:])
    case('the last letter of the magic', b'RGRM' + file()[4:])
    case('version 10', b'RGRN\x0a\x00' + file()[6:])
    case('version 11 in the high byte', b'RGRN\x00\x0b' + file()[6:])
    case('version 267', b'RGRN\x0b\x01' + file()[6:])
    case('a cut version', b'RGRN\x0b')
    case('int width 4', b'RGRN\x0b\x00\x04\x08' + file()[8:])
    case('float width 4', b'RGRN\x0b\x00\x08\x04' + file()[8:])
    case('both widths wrong', b'RGRN\x0b\x00\x00\xff' + file()[8:])
    case('wrong widths, and caps not yet there: Truncated', b'RGRN\x0b\x00\x04\x08\x00\x00\x00')
    case('wrong widths, caps there, no debug id: Abi', b'RGRN\x0b\x00\x04\x08\x00\x00\x00\x00')
    case('caps and both halves of the debug id', b'RGRN\x0b\x00\x08\x08\x01\x02\x03\x04' + bytes(range(0xF0, 0x100)) + file()[28:])
    case('a cut debug id', HEADER[:27])


def sources():
    case('a source name', file(source=text('a.rhai')))
    case('a source name of two bytes a letter', file(source=text('ä')))
    case('a source name cut: Truncated before BadUtf8', HEADER + b'\x02\xff')
    case('a source name that is not UTF-8', file(source=text(b'\xff')))
    case('an overlong form', file(source=text(b'\xc0\x80')))
    case('a surrogate', file(source=text(b'\xed\xa0\x80')))
    case('above 10FFFF', file(source=text(b'\xf4\x90\x80\x80')))
    case('the last scalar', file(source=text(b'\xf4\x8f\xbf\xbf')))
    case('a lone continuation', file(source=text(b'\x80')))
    case('a length of 2^64 - 1', HEADER + num(2 ** 64 - 1) + b'abc')
    case('a length that is padded', file(source=b'\x81\x00x'))
    case('a length of eleven bytes', HEADER + b'\x80' * 10 + b'\x00')
    case('a tenth byte above 1', HEADER + b'\x80' * 9 + b'\x02')
    case('a cut length', HEADER + b'\x80')


def name_tables():
    case('one name', file(names=names('x')))
    case('four names, one empty, one of three bytes a letter', file(names=names('a', '', 'b', '€')))
    case('as many names as bytes left, then cut', HEADER + b'\x00' + b'\x02\x01\x02')
    case('a count above the bytes left: Truncated before Full', HEADER + b'\x00' + num(1000) + bytes(20), lengths=lent(1, 0))
    case('a count of 2^64 - 1', HEADER + b'\x00' + num(2 ** 64 - 1) + bytes(20))
    case('a name and no place: Full', file(names=names('x')), lengths=lent(1, 0))
    case('a count of 1 at the end and no place: Truncated by the count', HEADER + b'\x00\x01', lengths=lent(1, 0))
    case('the third of two places', file(names=names('a', 'b', 'c')), lengths=lent(1, 2))
    case('exactly enough places', file(names=names('a', 'b', 'c')), lengths=lent(1, 3))
    case('ends fall', file(names=b'\x02\x02\x01' + text('ab')))
    case('equal ends do not fall', file(names=b'\x02\x02\x02' + text('ab')))
    case('the last end is short', file(names=b'\x01\x01' + text('ab')))
    case('the last end is long', file(names=b'\x01\x03' + text('ab')))
    case('no name, and a blob', file(names=b'\x00' + text('a')))
    case('the blob is not UTF-8', file(names=b'\x01\x01' + text(b'\xff')))
    case('a letter cut by an end is no fault', file(names=b'\x02\x01\x02' + text('ä')))
    case('falls, before last end and UTF-8', file(names=b'\x02\x02\x01' + text(b'\xff\xff\xff')))
    case('last end, before UTF-8', file(names=b'\x01\x01' + text(b'\xff\xff')))
    case('a blob cut: Truncated before falls', HEADER + b'\x00' + b'\x02\x02\x01\x05ab')
    case('an end above 32 bits', file(names=b'\x01' + num(2 ** 32) + text('')))
    case('the largest end', file(names=b'\x01' + num(2 ** 32 - 1) + text('')))


def constant_tags():
    for tag, name, rest in [(0, 'unit', b''), (1, 'false', b''), (2, 'true', b''), (3, 'zero', b'\x00'), (3, 'minus one', b'\x01'),
                            (3, 'the largest number', num(2 ** 64 - 2)), (3, 'the least number', num(2 ** 64 - 1)), (4, 'a float', bytes(range(1, 9))),
                            (5, 'a char', num(0x41)), (5, 'the last char before the surrogates', num(0xD7FF)), (5, 'the first behind them', num(0xE000)),
                            (5, 'the last char', num(0x10FFFF)), (6, 'a string', text('hail')), (6, 'an empty string', text('')),
                            (7, 'an empty array', b'\x00'), (8, 'an empty map', b'\x00'), (9, 'a blob', text(b'\x00\xff')),
                            (10, 'a range', sig(-5) + sig(5)), (11, 'an inclusive range', sig(5) + sig(-5)),
                            (13, 'a pointer to a function', text('f') + b'\x00\x81'), (13, 'a pointer to a script', text('f') + b'\x00\x82\x03'),
                            (13, 'a script with 2^64 - 1 parameters', text('f') + b'\x00\x82' + num(2 ** 64 - 1))]:
        case('constant: ' + name, constants(bytes([tag]) + rest))
    for tag in (0x0C, 0x0E, 0x7F, 0xFF):
        case(f'constant: tag {tag:02X} is unknown', constants(bytes([tag])))
    for code in (0xD800, 0xDFFF, 0x110000, 2 ** 32 - 1, 2 ** 32):
        case(f'constant: {code:X} is no char', constants(b'\x05' + num(code)))
    case('constant: a pointer of another kind', constants(b'\x0d' + text('f') + b'\x00\x83'))
    case('constant: a pointer of kind 80', constants(b'\x0d' + text('f') + b'\x00\x80'))
    case('constant: a string that is not UTF-8', constants(b'\x06' + text(b'\xc3')))
    case('constant: a blob that is not UTF-8 is none the worse', constants(b'\x09' + text(b'\xc3')))
    case('constant: a cut float', constants()[:-12] + b'\x01\x04' + bytes(7))
    case('constant: a number of eleven bytes', constants(b'\x03' + b'\xff' * 10 + b'\x00'))


def constant_trees():
    case('an array of three', constants(b'\x07\x03\x00\x01\x02'))
    case('arrays in an array, a parent before its items', constants(b'\x07\x02\x07\x01\x00\x07\x01\x02', b'\x01'))
    case('a map of two entries', constants(b'\x08\x02' + text('a') + b'\x00' + text('b') + b'\x07\x01\x02'))
    case('a map with a key twice', constants(b'\x08\x02' + text('a') + b'\x01' + text('a') + b'\x02'))
    case('a map key that is not UTF-8', constants(b'\x08\x01' + text(b'\x80') + b'\x00'))
    case('curried constants', constants(b'\x0d' + text('f') + b'\x02\x03\x02\x06' + text('x') + b'\x82\x05'))
    case('curried constants inside a map inside an array', constants(b'\x07\x01\x08\x01' + text('k') + b'\x0d' + text('f') + b'\x01\x00\x81'))
    deep = lent(2, 66 * 8)
    for kind, what in ((7, 'arrays'), (8, 'maps'), (13, 'curried lists')):
        case(f'a unit under 64 {what}', constants(under(64, kind)), lengths=deep)
        case(f'a unit under 65 {what}', constants(under(65, kind)), lengths=deep)
    case('depth 65 is refused before its tag', constants(under(65)[:-1]), lengths=deep)
    case('depth goes before Full', constants(under(65)), lengths=lent(2, 65 * 8))
    case('Full at depth 64', constants(under(64)), lengths=lent(2, 64 * 8))
    case("a map's key goes before depth", constants(under(64)[:-1] + b'\x08\x01' + text(b'\xff') + b'\x00'), lengths=deep)
    case("a map's key goes before Full", constants(b'\x08\x01' + text(b'\xff') + b'\x00'), lengths=lent(2, 8))
    case('Full before the tag', constants(b'\x00', b'\x0c'), lengths=lent(2, 8))
    case('an item without a place', constants(b'\x07\x02\x00\x00'), lengths=lent(2, 16))
    case('exactly enough places for a tree', constants(b'\x07\x02\x00\x00'), lengths=lent(2, 24))
    case('seven words are no place', constants(b'\x00'), lengths=lent(2, 7))
    case('fifteen words are one place, and the rest stays zero', constants(b'\x03\x02'), lengths=lent(2, 15))
    case('2^64 - 1 constants', file(constants=num(2 ** 64 - 1) + b'\x00' * 5)[:40])
    case('an array of 2^64 - 1', file(constants=b'\x01\x07' + num(2 ** 64 - 1))[:40])


def operators():
    case('tokens', file(tokens=each([text('+'), text('-'), text('')])))
    case('a token that is not UTF-8', file(tokens=each([text(b'\xfe')])))
    case('a token without a place', file(tokens=each([text('+')])), lengths=lent(3, 1))
    case('Full before the first byte of a token', file()[:32] + b'\x01', lengths=lent(3, 0))
    case('an assign record', file(assigns=each([text('+=') + b'\x05' + text('+') + num(2 ** 32 - 1)])))
    case('an assign record with a wide name', file(assigns=each([text('+=') + num(2 ** 32) + text('+') + b'\x00'])))
    case('an assign record whose second token is not UTF-8', file(assigns=each([text('+=') + b'\x00' + text(b'\xff') + b'\x00'])))
    case('an assign record without a place', file(assigns=each([text('+=') + b'\x00' + text('+') + b'\x00'])), lengths=lent(4, 5))


def chain_records():
    for name, root in [('local', b'\x01\x07\x08'), ('temporary', b'\x02'), ('named', b'\x03\x09\x0a\x0b'), ('named, no position', b'\x03\x09\x00\x0b'),
                       ('this', b'\x04\x0a\x0b'), ('this, no position', b'\x04\x00\x00'), ('local, the largest slot', b'\x01' + num(0xFFFF) + b'\x00')]:
        case('root: ' + name, file(chains=each([chain(root)])))
    case('root: a wide slot', file(chains=each([chain(b'\x01' + num(0x10000) + b'\x00')])))
    case('root: tag 00', file(chains=each([chain(b'\x00')])))
    case('root: tag 05', file(chains=each([chain(b'\x05')])))
    case('root: a wide line', file(chains=each([chain(b'\x04' + num(0x10000) + b'\x00')])))
    for name, step in [('index', b'\x01\x00\x05\x01\x02\x03\x04'), ('index with its flag', b'\x01\x01\x05\x01\x02\x03\x04'), ('property', b'\x02\x00\x05\x06\x07\x01\x02'),
                       ('method', b'\x03\x01\x05\xff\x06\x01\x02'), ('method, no position', b'\x03\x00\x05\x00\x06\x00\x02')]:
        case('step: ' + name, file(chains=each([chain(steps=[step])])))
    case('step: flags outside the mask', file(chains=each([chain(steps=[b'\x01\x02\x00\x00\x00\x00\x00'])])))
    case('step: flags before the tag', file(chains=each([chain(steps=[b'\x09\x02'])])))
    case('step: an unknown tag', file(chains=each([chain(steps=[b'\x09\x01'])])))
    case('step: the flag without a mask', file(chains=each([chain(steps=[b'\x01\x01\x00\x00\x00\x00\x00'])])), mask=0)
    case('step: all flags in the mask', file(chains=each([chain(steps=[b'\x01\xff\x00\x00\x00\x00\x00'])])), mask=0xFF)
    case('step: a wide operand', file(chains=each([chain(steps=[b'\x01\x00' + num(0x10000) + bytes(4)])])))
    for name, tail in [('read', b'\x01'), ('assign', b'\x02'), ('assign with an operator', b'\x03' + num(2 ** 32 - 1)), ('tag 00', b'\x00'), ('tag 04', b'\x04'),
                       ('a wide operator', b'\x03' + num(2 ** 32))]:
        case('tail: ' + name, file(chains=each([chain(tail=tail)])))
    case('chain: a wide operand count', file(chains=each([chain(operands=num(0x10000))])))
    case('chain: no place', file(chains=each([chain()])), lengths=lent(5, 8))
    case('chain: no place for its second step', file(chains=each([chain(steps=[b'\x01\x00' + bytes(5)] * 2)])), lengths=lent(6, 21))
    case('chain: steps of two chains stand one behind the other', file(chains=each([chain(steps=[b'\x01\x00\x01' + bytes(4)]), chain(steps=[b'\x03\x00\x02' + bytes(4)])])))
    case('chain: exactly enough steps', file(chains=each([chain(steps=[b'\x01\x00' + bytes(5)] * 2)])), lengths=lent(6, 22))
    case('chain: 2^64 - 1 steps', file(chains=b'\x01\x02\x00' + num(2 ** 64 - 1))[:48])


def switch_records():
    two = each([b'\x00', b'\x07\x01\x02'])
    case('a switch of nothing', file(switches=each([b'\x00\x00\x05'])))
    case('cases of both top constants', file(constants=two, switches=each([each([b'\x01\x00', b'\x02\x01']) + b'\x00\x03'])))
    case('an inner constant is none that a case may name', file(constants=two, switches=each([each([b'\x01\x02']) + b'\x00\x03'])))
    case('a case where there are no constants', file(switches=each([each([b'\x07\x00']) + b'\x00\x03'])))
    case('a bad index at once, before the next case', file(constants=two, switches=each([b'\x02\x01\x09'])))
    case('a wide constant index', file(constants=two, switches=each([each([b'\x01' + num(2 ** 32)]) + b'\x00\x03'])))
    case('ranges', file(switches=each([b'\x00' + each([sig(-1) + sig(1) + b'\x00\x04', sig(0) + sig(0) + b'\x02\x05']) + b'\x06'])))
    case('a case without a place', file(constants=two, switches=each([each([b'\x01\x00']) + b'\x00\x03'])), lengths=lent(8, 1))
    case('a range without a place', file(switches=each([b'\x00' + each([sig(-1) + sig(1) + b'\x00\x04']) + b'\x06'])), lengths=lent(9, 3))
    case('a switch without a place', file(switches=each([b'\x00\x00\x05'])), lengths=lent(7, 2))
    case('Full of a case before its bad index', file(switches=each([each([b'\x07\x00']) + b'\x00\x03'])), lengths=lent(8, 0))


def callables():
    one = each([b'\x01\x02' + each([b'\x03\x04\x05\x06'])])
    case('a custom site', file(customs=one))
    case('a literal that means none', file(customs=each([b'\x01\x02' + each([b'\x03\x04\x05' + num(0xFFFFFFFF)])])))
    case('the largest literal', file(customs=each([b'\x01\x02' + each([b'\x03\x04\x05' + num(0xFFFFFFFE)])])))
    case('a wide literal', file(customs=each([b'\x01\x02' + each([b'\x03\x04\x05' + num(2 ** 32)])])))
    case('a custom site without a place', file(customs=one), lengths=lent(10, 2))
    case('an input without a place', file(customs=one), lengths=lent(11, 4))
    case('wide slots of the main chunk', file(main=b'\x00\x00' + num(0x10000)))
    case('the main chunk', file(main=b'\x01' + num(2 ** 32 - 1) + num(0xFFFF)))
    case('a function', file(functions=each([function(1, 1, 3, (4, 5), b'\x06\x07\x08')])))
    case('access 2 is Truncated', file(functions=each([function(access=2)])))
    case('access 2^64 - 1 is Truncated', file(functions=each([function(access=2 ** 64 - 1)])))
    case('the largest this_type', file(functions=each([function(this=2 ** 32)])))
    case('a wider this_type is Truncated', file(functions=each([function(this=2 ** 32 + 1)])))
    case('a function without a place', file(functions=each([function()])), lengths=lent(12, 6))
    case('a parameter without a place', file(functions=each([function(parameters=(1, 2))])), lengths=lent(13, 1))
    case('a wide parameter', file(functions=each([function(parameters=(2 ** 32,))])))


def ends():
    case('code', file(code=text(b'\xff\x00')))
    case('cut code', file(code=b'\x03\x01\x02')[:-2])
    for name, table in [('of two sites', b'\x02\x00\x01\x01\x05\x02\xac\x02'), ('of no site', b'\x00'), ('with a site of line 0', b'\x01\x07\x00\x04'), ('cut', b'\x01\x07'),
                        ('with a zero step', b'\x02\x05\x01\x01\x00\x02\x02'), ('whose zero step comes before its cut line', b'\x02\x05\x01\x01\x00'),
                        ('with a sum above 32 bits', b'\x02' + num(2 ** 32 - 1) + b'\x01\x01\x01'), ('with a wide line', b'\x01\x00' + num(2 ** 32) + b'\x00'),
                        ('with bytes behind', b'\x00\x00\x00'), ('with a padded number', b'\x81\x00\x00\x01\x01'), ('with a number of eleven bytes', b'\x80' * 10 + b'\x01'),
                        ('with a count above 32 bits', num(2 ** 32))]:
        case('a position table ' + name, file(positions=text(table)))
    case('a cut position table: Truncated before its check', file(positions=b'\x04\x02\x00')[:-1])
    case('one byte behind', file(end=b'\x00'))
    case('five bytes behind', file(end=b'abcde'))
    case('trailing bytes come behind a bad position table', file(positions=text(b'\x01\x07'), end=b'\x00'))


def whole():
    case('all sections', RICH)
    case('all sections, no word lent', RICH, lengths=[0] * 13)
    used = [4, 17, 2, 1, 3, 3, 2, 2, 1, 1, 2, 2, 2]
    exact = [n * width for n, width in zip(used, WIDTHS)]
    case('all sections in tables that fit exactly', RICH, lengths=exact)
    case('all sections, with words that make no row', RICH, lengths=[n + width - 1 for n, width in zip(exact, WIDTHS)])
    for table in range(13):
        lengths = list(exact)
        lengths[table] -= 1
        case(f'all sections, table {table + 1} one word short', RICH, lengths=lengths)
    for k in range(len(RICH)):
        case(f'all sections, the first {k} bytes', RICH[:k])
    case('all sections and a byte', RICH + b'\x00')


def lines():
    """The text of both files."""
    for section in (headers, sources, name_tables, constant_tags, constant_trees, operators, chain_records, switch_records, callables, ends, whole):
        section()
    given, answered = [], []
    for name, mask, lengths, data in CASES:
        words, tables = read(data, mask, lengths)
        head = bytes([mask]) + b''.join(length.to_bytes(2, 'little') for length in lengths)
        given += ['# ' + name, (head + data).hex()]
        answered += ['# ' + name, ' '.join(map(str, words)), *map(shown, tables)]
    return ['\n'.join(side) + '\n' for side in (given, answered)]


def shown(table):
    """A table's words, with a run of zeros as 0*n."""
    said, zeros = '', 0
    for word in table + [None]:
        if word == 0:
            zeros += 1
            continue
        if zeros:
            said += f' 0*{zeros}'
        zeros = 0
        if word is not None:
            said += f' {word}'
    return '|' + said


def made():
    return dict(zip(('cases.txt', 'answers.txt'), lines())), f'{len(CASES)} artifacts'


if __name__ == '__main__':
    store(__doc__, made)
