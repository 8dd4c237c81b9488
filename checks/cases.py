"""The cases that the program `vectors` is run on in the gate, and what it has to print.

`cases.py write` writes crates/vectors/stdin and stdout; `cases.py` says whether they are as this file has them."""
import pathlib
import random
import sys

from model import LENGTHS, MAKES, derive, down, packet, pebbled, table, tag

HERE = pathlib.Path(__file__).resolve().parent.parent / 'crates' / 'vectors'
MEANING = {
    'refused 1': 'the packet is of no kind that this call takes',
    'refused 2': 'the packet has not the length of its kind',
    'refused 15': 'a parameter is outside its limits',
    'refused 17': 'the payload or the message is too long',
}

# key, block and result of the five examples in Rivest's paper
RIVEST = [
    ('00000000000000000000000000000000', '0000000000000000', '21a5dbee154b8f6d'),
    ('915f4619be41b2516355a50110a9ce91', '21a5dbee154b8f6d', 'f7c013ac5b2b8952'),
    ('783348e75aeb0f2fd7b169bb8dc16787', 'f7c013ac5b2b8952', '2f42b3b70369fc92'),
    ('dc49db1375a5584f6485b413b5f12baf', '2f42b3b70369fc92', '65c178b284d197cc'),
    ('5269f149d41ba0152497574d7f153125', '65c178b284d197cc', 'eb44e415da319824'),
]

UNREAD = [
    ('rc6 00 00', 'a case begins with rc5, adding, tag, derive, down, packet, pebbled or table'),
    ('tag rc6 00000000000000000000000000000000 -', 'after tag, derive, down or pebbled comes rc5 or adding'),
    ('rc5 00000000000000000000000000000000', 'the case has not as many words as its task takes'),
    ('rc5 00000000000000000000000000000000 0000000000000000 00', 'the case has not as many words as its task takes'),
    ('rc5 000000000000000000000000000000 0000000000000000', 'the key is not 32 hexadecimal digits'),
    ('rc5 0000000000000000000000000000000g 0000000000000000', 'the key is not 32 hexadecimal digits'),
    ('rc5 00000000000000000000000000000000 00000000000000', 'the block is not 16 hexadecimal digits for rc5, 32 for adding'),
    ('adding 00000000000000000000000000000000 0000000000000000', 'the block is not 16 hexadecimal digits for rc5, 32 for adding'),
    ('tag rc5 00000000000000000000000000000000 123', 'the bytes are neither pairs of hexadecimal digits nor -'),
    ('derive rc5 00000000000000000000000000000000 0100', 'the purpose is not 2 hexadecimal digits'),
    ('down rc5 00000000000000000000000000000000 4294967296', 'the count is not a number from 0 to 4294967295'),
    ('down rc5 00000000000000000000000000000000 -1', 'the count is not a number from 0 to 4294967295'),
    ('pebbled rc5 00000000000000000000000000000000', 'the case has not as many words as its task takes'),
    ('table 00', 'the key is not 32 hexadecimal digits'),
    ('packet 01 02', 'the case has not as many words as its task takes'),
    ('packet 0', 'the bytes are neither pairs of hexadecimal digits nor -'),
    ('rc5 00000000000000000000000000000000 0000000000000000 =', 'after = comes a value'),
]


def digits(rng, count):
    return bytes(rng.randrange(256) for _ in range(count)).hex()


def value(words):
    """the value of a case, by the model"""
    if words[0] == 'packet':
        return packet(b'' if words[1] == '-' else bytes.fromhex(words[1]))
    if words[0] == 'table':
        return table([bytes.fromhex(word) for word in words[1:]])
    if words[0] == 'pebbled':
        return pebbled(MAKES[words[1]], bytes.fromhex(words[2]), int(words[3]))
    if words[0] in MAKES:
        make, key, block = MAKES[words[0]], bytes.fromhex(words[1]), bytes.fromhex(words[2])
        return make(key).encrypt(block).hex()
    task, make, key, last = words[0], MAKES[words[1]], bytes.fromhex(words[2]), words[3]
    if task == 'tag':
        message = b'' if last == '-' else bytes.fromhex(last)
        return tag(make, key, message).hex() if len(message) <= 4096 else 'refused 17'
    if task == 'derive':
        return derive(make, key, int(last, 16)).hex()
    return down(make, key, int(last)).hex()


def random_packet(rng):
    """any bytes up to a length of 80, of a kind that there is more often than not"""
    data = bytearray(rng.randrange(256) for _ in range(rng.randrange(81)))
    if data and rng.random() < 0.9:
        data[0] = rng.choice(sorted(LENGTHS))
    return bytes(data)


def random_case(rng, longest=40):
    name = rng.choice(sorted(MAKES))
    key = digits(rng, 16)
    task = rng.choice(['encrypt', 'tag', 'derive', 'down', 'packet', 'pebbled', 'table'])
    if task == 'packet':
        return ['packet', random_packet(rng).hex() or '-']
    if task == 'pebbled':
        return ['pebbled', name, key, str(rng.randrange(7))]
    if task == 'table':
        return ['table'] + [digits(rng, 16) for _ in range(rng.choice([1, 2, 3, 4, 8]))]
    if task == 'encrypt':
        return [name, key, digits(rng, MAKES[name].width)]
    if task == 'tag':
        return ['tag', name, key, digits(rng, rng.randrange(longest + 1)) or '-']
    if task == 'derive':
        return ['derive', name, key, digits(rng, 1)]
    return ['down', name, key, str(rng.randrange(30))]


class Sheet:
    """lines to read, and the lines to print for them"""

    def __init__(self):
        self.read, self.printed = [], []
        self.counts = dict(ok=0, wrong=0, shown=0, unread=0)

    def passed(self, line):
        self.read.append(line)
        self.printed.append(line)

    def case(self, words, expected=None):
        """a case with the value that is expected of it, or with none"""
        found = value(words)
        shown = f'{found} ({MEANING[found]})' if found in MEANING else found
        case = ' '.join(words)
        kind = 'shown' if expected is None else 'ok' if expected.lower() == found else 'wrong'
        self.counts[kind] += 1
        self.read.append(case if expected is None else f'{case} = {expected}')
        self.printed.append(f'{case} = {shown}' + dict(shown='', ok=' ok', wrong=' WRONG')[kind])

    def unread(self, line, why):
        self.counts['unread'] += 1
        self.read.append(line)
        self.printed.append(f'? {why}: {line}')

    def texts(self):
        last = '{ok} ok, {wrong} wrong, {shown} shown, {unread} unread'.format(**self.counts)
        return '\n'.join(self.read) + '\n', '\n'.join(self.printed + [last]) + '\n'


def gate():
    rng = random.Random(1994)
    sheet = Sheet()
    sheet.passed("# Rivest's five examples")
    for key, block, result in RIVEST:
        sheet.case(['rc5', key, block], result)
    sheet.passed('')
    sheet.passed('# the adding block')
    zero = '00' * 16
    sheet.case(['adding', zero, zero], '01' * 16)
    sheet.case(['adding', 'ff' * 16, '000102030405060708090a0b0c0d0e0f'], '000102030405060708090a0b0c0d0e0f')
    sheet.case(['tag', 'adding', zero, '-'], '01' * 8)
    sheet.case(['down', 'adding', zero, '1'], '01020202020202020101020202020202')
    sheet.case(['down', 'adding', zero, '2'], '05060606060606060505060606060606')
    sheet.passed('# tags of messages of many lengths, and the longest')
    for name in sorted(MAKES):
        for length in (0, 1, 7, 8, 9, 15, 16, 17, 4096, 4097):
            words = ['tag', name, digits(rng, 16), digits(rng, length) or '-']
            sheet.case(words, value(words))
    sheet.passed('# derived keys and steps down the chain')
    for name in sorted(MAKES):
        for purpose in ('01', '02', '03', 'ff'):
            words = ['derive', name, digits(rng, 16), purpose]
            sheet.case(words, value(words))
        for count in (0, 1, 2, 8, 100):
            words = ['down', name, digits(rng, 16), str(count)]
            sheet.case(words, value(words))
    sheet.passed('# packets: each kind at its shortest and longest, a byte less and more, and other kinds')
    sheet.case(['packet', '030002000b06040606060606'], 'data, interval 2, number 0, payload -, tag 0b06040606060606')
    for kind, limits in sorted(LENGTHS.items()):
        for length in sorted({limits[0] - 1, *limits, limits[1] + 1}):
            words = ['packet', bytes([kind]).hex() + digits(rng, length - 1)]
            sheet.case(words, value(words))
    for start in ('030000', '03ffff', '040000', '04ffff'):
        words = ['packet', start + digits(rng, 16)]
        sheet.case(words, value(words))
    sheet.case(['packet', '02' + 'ff' * 47], packet(b'\x02' + b'\xff' * 47))
    for data in ('-', '00', '05', 'ff', '01', '02', '03', '04', '00' * 9, '05' * 19):
        sheet.case(['packet', data], value(['packet', data]))
    sheet.passed('# key sources: each key with its steps, then the sum of the steps')
    for name in sorted(MAKES):
        for k in (0, 1, 2, 3, 5, 13):
            words = ['pebbled', name, digits(rng, 16), str(k)]
            sheet.case(words, value(words))
    for count in (0, 1, 2, 3, 4, 8):
        words = ['table'] + [digits(rng, 16) for _ in range(count)]
        sheet.case(words, value(words))
    sheet.passed('# a value in capital letters, one that is wrong, and cases that are only shown')
    sheet.case(['rc5', zero, '00' * 8], '21A5DBEE154B8F6D')
    sheet.case(['rc5', zero, '00' * 8], '21a5dbee154b8f6e')
    for _ in range(10):
        sheet.case(random_case(rng))
    sheet.passed('# lines that cannot be read')
    for line, why in UNREAD:
        sheet.unread(line, why)
    return sheet.texts()


def main():
    texts = dict(zip(('stdin', 'stdout'), gate()))
    for name, text in texts.items():
        if sys.argv[1:] == ['write']:
            (HERE / name).write_text(text)
        elif (HERE / name).read_text() != text:
            sys.exit(f'{HERE / name} is not what checks/cases.py gives')
    print('cases: crates/vectors is held to the model')


if __name__ == '__main__':
    main()
