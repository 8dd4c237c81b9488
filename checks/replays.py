"""Captures through `replay`, `explain` and `orders`, and that of `rehearse`, against the model:
replays.py [COUNT [SEED [FOLDER]]].

COUNT random captures, 200 if it is not given, after those that are always tried; FOLDER holds the programs. If it is
not given, they are those that `rt run` or `rt ci` left in crates/NAME/out. The first difference ends it."""
import pathlib
import random
import re
import shutil
import struct
import subprocess
import sys
import tempfile

from captures import (EXAMPLE, EXAMPLE_PAIR, LONGEST, MEANING, ORDERS, explain, header, in_order, orders, record,
                      records, replay)
from model import Base, Rc5, Refused, derive, down, request, tag
from rehearsal import PAIR, rehearsal

ROOT = pathlib.Path(__file__).resolve().parent.parent
SAMPLE = ROOT / 'sample'
EDGES = (0, 1, 4096, 4097, 65535)  # intervals at the limits of what a packet may have
FIELDS = dict(time=(1, 8), interval=(25, 2), start=(27, 8), duration=(35, 4), delay=(39, 1))  # of an answer


def chain(last, k):
    """the keys of a chain of 2^k, from K_0 on"""
    keys = [last]
    for _ in range(2 ** k):
        keys.append(down(Rc5, keys[-1], 1))
    return keys[::-1]


def changed(answer, pair, nonce, **numbers):
    """an answer with some of its numbers other than they were, under a tag that is right"""
    front = bytearray(answer[:40])
    for field, number in numbers.items():
        at, length = FIELDS[field]
        front[at:at + length] = number.to_bytes(length, 'big')
    return bytes(front) + tag(Rc5, derive(Rc5, pair, 3), nonce + front)


class Air:
    """what a node hears of a base: packets lost, repeated, damaged, forged, early, late and out of order"""

    def __init__(self, rng):
        self.rng, self.pair, self.nonce = rng, rng.randbytes(16), rng.randbytes(8)
        self.keys = chain(rng.randbytes(16), rng.choice((1, 2, 3, 4, 4, 5, 5, 5, 6)))
        self.duration = rng.choice((40000, 100000, 100000, 300000, 10 ** 6, 10 ** 6, rng.randrange(1, 50000),
                                    2 ** 32 - 1))
        start = rng.choice((0, 0, rng.randrange(10 ** 7), rng.randrange(2 ** 51)))
        self.base = Base(Rc5, self.keys, start, self.duration, rng.choice((1, 2, 2, 3, 4, 16)))
        # the node's clock is set apart from the base's, so that the offset has either sign
        self.time, self.shift = start, rng.choice((0, rng.randrange(10 ** 7), rng.randrange(2 ** 51))) - start
        self.reading, self.sent, self.log = 0, [], []

    def wait(self, most):
        self.time += self.rng.randrange(most + 1)

    def hear(self, data):
        self.reading = max(self.reading, self.time + self.shift + self.rng.randrange(self.duration // 20 + 1))
        back = self.rng.random() < 0.03
        self.log.append((max(0, self.reading - self.rng.randrange(2 * self.duration)) if back else self.reading, data))

    def order(self, length=None):
        rng = self.rng
        length = rng.choice((0, 64, rng.randrange(65), rng.randrange(20))) if length is None else length
        text = rng.choice((b'racking +2 -1 reverse, confirm course 41', b'"\\ ~\x1f\x7f', bytes(range(256))))
        try:
            data = self.base.order(self.time, bytes(rng.choice(text) for _ in range(length)))
        except Refused:
            return
        self.sent.append(data)
        if rng.random() < 0.9:
            self.hear(data)

    def orders(self):
        """more orders at once than a receiver has places"""
        for _ in range(self.rng.randrange(33, 40)):
            self.order(self.rng.randrange(4))

    def key(self, heard=0.6):
        try:
            data = self.base.disclose(self.time)
        except Refused:
            return
        self.sent.append(data)
        if self.rng.random() < heard:
            self.hear(data)

    def one_sent(self):
        return self.rng.choice(self.sent or [b'\x00'])

    def copy(self):
        self.hear(self.one_sent())

    def damaged(self):
        data = bytearray(self.one_sent())
        data[self.rng.randrange(len(data))] ^= self.rng.randrange(1, 256)
        self.hear(bytes(data))

    def of_other_length(self):
        data = self.one_sent()
        self.hear(self.rng.choice((data[:self.rng.randrange(len(data))], data + b'\x00', data + bytes(70))))

    def some_interval(self):
        now = self.base.interval(self.time)
        near = min(max(now + self.rng.randrange(-3, 4), 0), 65535)
        return self.rng.choice((near, near, near, self.rng.choice(EDGES))).to_bytes(2, 'big')

    def forged_key(self):
        self.hear(b'\x04' + self.some_interval() + self.rng.choice((self.rng.randbytes(16), *self.keys[-2:])))

    def early_key(self):
        m = min(max(self.base.interval(self.time), 1), len(self.keys) - 1)
        self.hear(b'\x04' + m.to_bytes(2, 'big') + self.keys[m])

    def forged_order(self):
        self.hear(b'\x03' + self.some_interval() + self.rng.randbytes(self.rng.choice((9, 20, 73))))

    def noise(self):
        data = self.rng.randbytes(self.rng.choice((0, 1, 9, 19, 48, 256, self.rng.randrange(257))))
        self.hear(self.rng.choice((data, b'\x03' + data[1:])))

    def request(self):
        self.hear(request(self.rng.choice((self.nonce, self.rng.randbytes(8)))))

    def answer(self):
        """an answer to this node or to another"""
        self.hear(self.base.answer(self.time, self.pair, request(self.rng.choice((self.nonce, self.rng.randbytes(8))))))

    def odd_answer(self):
        """an answer with numbers at or beyond their limits"""
        limits = dict(time=(2 ** 52 - 1, 2 ** 52, 2 ** 64 - 1), interval=(*EDGES, 2), duration=(0, 1, 2 ** 32 - 1),
                      start=(self.time + 1, 2 ** 64 - 1), delay=(0, 1, 16, 17, 255))
        picked = self.rng.sample(list(limits), self.rng.choice((1, 1, 2)))
        answer = self.base.answer(self.time, self.pair, request(self.nonce))
        self.hear(changed(answer, self.pair, self.nonce, **{field: self.rng.choice(limits[field]) for field in picked}))

    def event(self):
        self.wait(self.rng.choice((0, self.duration // 4, self.duration // 2)))
        self.rng.choices(
            (self.order, self.orders, self.key, self.copy, self.damaged, self.of_other_length, self.forged_key,
             self.early_key, self.forged_order, self.noise, self.answer, self.pause),
            (30, 1, 25, 6, 5, 3, 4, 2, 4, 4, 1, 10))[0]()

    def pause(self):
        self.wait(2 * self.duration)

    def join(self):
        if self.rng.random() < 0.05:
            self.request()
        self.hear(request(self.nonce))
        self.wait(self.rng.choice((0, 1000, self.duration // 5)))
        for strange in (self.request, self.order, self.key, self.damaged, self.answer, self.odd_answer):
            if self.rng.random() < 0.15:
                strange()
        if self.rng.random() < 0.95:
            answer = self.base.answer(self.time, self.pair, request(self.nonce))
            self.sent.append(answer)
            self.hear(answer)

    def history(self):
        """the readings and bytes of the records"""
        for _ in range(self.rng.choice((0, 0, 3, 12))):  # so that many join after interval 0
            self.event()
        self.join()
        for _ in range(self.rng.randrange(5, 45)):
            self.event()
        self.time += self.duration
        self.order()
        self.time += (self.base.delay + 2) * self.duration  # so that a last key proves most of what is held
        self.key(heard=0.95)
        return self.log


def in_field(rng, part, order):
    """a record with one number of its header other than it was"""
    field, values = rng.choice((
        (0, (0, 2 ** 32 - 1)), (1, (999999, 1000000, 2 ** 32 - 1)), (2, (0, len(part) - 15, 256, 257, 2 ** 32 - 1)),
        (3, (0, len(part) - 15, 2 ** 32 - 1))))
    return part[:4 * field] + rng.choice(values).to_bytes(4, order) + part[4 * field + 4:]


def swapped(part, size):
    """the numbers of a header in the other byte order"""
    sizes = 'IHHIIII' if size == 24 else 'IIII'
    return struct.pack('>' + sizes, *struct.unpack('<' + sizes, part[:size])) + part[size:]


def filled(capture, length, order='little'):
    """a capture made as long as is asked by records that are no packets"""
    while len(capture) < length:
        left = length - len(capture) - 16
        if left < 0:
            return capture + bytes(length - len(capture))
        # never so long that fewer than 16 bytes would be left for the next one
        capture += record(0, bytes(128 if 256 < left < 272 else min(left, 256)), order)
    return capture


def mutilated(rng, parts, order):
    """the bytes of a capture, given in its header and records, with something done to them"""
    at = rng.randrange(1, len(parts))
    what = rng.randrange(12)
    if what == 0:
        head = bytearray(parts[0])
        head[rng.randrange(24)] ^= rng.randrange(1, 256)
        parts[0] = bytes(head)
    elif what in (1, 2):
        parts[at] = in_field(rng, parts[at], order)
    elif what == 3:
        parts[at] = swapped(parts[at], 16)
    elif what == 4:
        parts[0] = swapped(parts[0], 24)
    elif what == 5:
        parts.insert(at, record(0, bytes(rng.choice((255, 256, 257))), order))
    elif what == 6:
        parts[at:at] = parts[1:at]
    elif what == 7:
        other = rng.randrange(1, len(parts))
        parts[at], parts[other] = parts[other], parts[at]
    elif what == 8:
        parts[at:] = reversed(parts[at:])
    capture = bytearray(b''.join(parts))
    if what == 9:
        capture[rng.randrange(len(capture))] ^= 1 << rng.randrange(8)
    elif what == 10:
        del capture[rng.randrange(len(capture)):]
    elif what == 11:
        return filled(bytes(capture), LONGEST + rng.randrange(2), order)
    return bytes(capture)


def random_capture(rng):
    """a pair key, and a capture that a node with it may have made; every third is mutilated"""
    air, order = Air(rng), rng.choice(list(ORDERS))
    fields = rng.choice(({}, dict(zone=rng.randrange(2 ** 32), accuracy=rng.randrange(2 ** 32),
                                  longest=rng.randrange(2 ** 32))))
    parts = [header(order, **fields)] + [record(t, data, order) for t, data in air.history()]
    return air.pair, mutilated(rng, parts, order) if rng.random() < 1 / 3 else b''.join(parts)


def gap(k, count, shift):
    """so many orders of 64 bytes and fewer in interval 1 of a chain of 2^k keys, of which only the last one is heard"""
    base, asked = Base(Rc5, chain(bytes(16), k), 0, 100000, 16), request(bytes(8))
    heard = [(shift, asked), (shift, base.answer(0, EXAMPLE_PAIR, asked))]
    heard += [(100000 + x + shift, base.order(100000 + x, bytes([x]) * (64 - 2 * x))) for x in range(count)]
    end = (2 ** k + 16) * 100000
    return header() + b''.join(record(t, data) for t, data in heard + [(end + shift, base.disclose(end))])


def schedules():
    """the complete example with an answer in front of its own, which has numbers on each side of a limit"""
    (t, asked), (_, answer) = records(EXAMPLE)[1][:2]
    time = int.from_bytes(answer[1:9], 'big')
    for numbers in (
            dict(delay=0), dict(delay=16), dict(delay=17), dict(delay=255),
            dict(duration=0), dict(duration=0, interval=1), dict(duration=1), dict(duration=2 ** 32 - 1),
            dict(duration=1, interval=4096), dict(duration=1, interval=4097), dict(duration=1, interval=65535),
            dict(time=2 ** 52 - 1), dict(time=2 ** 52), dict(time=2 ** 63), dict(time=2 ** 64 - 1),
            dict(start=time), dict(start=time + 1), dict(start=2 ** 63), dict(start=2 ** 64 - 1),
            dict(interval=1, duration=time), dict(interval=1, duration=time + 1),
            dict(interval=1, duration=time // 2, delay=2), dict(interval=1, duration=time // 2 + 1, delay=2),
            dict(interval=1, time=2 ** 52 - 1, duration=1, delay=16)):
        odd = changed(answer, EXAMPLE_PAIR, asked[1:], **numbers)
        yield f'an answer with {numbers}', EXAMPLE[:49] + record(t, odd) + EXAMPLE[49:]


def always():
    """the captures that are tried every time: name, pair key and bytes"""
    sample = (SAMPLE / 'pair.key').read_bytes()
    for name in ('carriage.pcap', 'carriage-big-endian.pcap'):
        yield name, sample, (SAMPLE / name).read_bytes()
    yield 'a key of another pair', sample, EXAMPLE
    head, rest, heard = EXAMPLE[:24], EXAMPLE[24:], records(EXAMPLE)[1]
    big = in_order(EXAMPLE, 'big', zone=1, accuracy=2, longest=3)
    latest = 2 ** 32 * 10 ** 6 - 1
    given = {
        'no records': header(),
        'no records, big-endian': header('big', 1, 2, 3),
        'the complete example': EXAMPLE,
        'the complete example without its last byte': EXAMPLE[:-1],
        'the complete example, big-endian': big,
        'the complete example, big-endian, without its last byte': big[:-1],
        'half a record header': EXAMPLE + bytes(15),
        'an empty record': EXAMPLE + bytes(16),
        '999,999 microseconds': head + record(999999, b'') + rest,
        '1,000,000 microseconds': head + struct.pack('<IIII', 0, 10 ** 6, 0, 0) + rest,
        'both sides of the interval': head + b''.join(record(t, data) for t, data in heard[:2] + [
            (t, data) for t in (6989999, 6990000) for _, data in heard[2:]]),
        'an order at the latest reading': EXAMPLE + record(latest, heard[2][1]),
        'all at the latest readings': head + b''.join(record(t + latest - heard[-1][0], data) for t, data in heard),
        '256 bytes': head + record(0, bytes(256)) + rest,
        '257 bytes': head + record(0, bytes(257)) + rest,
        'original length above the stored': head + struct.pack('<IIII', 0, 0, 0, 1) + rest,
        'original length below the stored': head + struct.pack('<IIII', 0, 0, 1, 0) + b'\x00' + rest,
        'another request first': head + record(0, request(b'another.')) + rest,
        'another request second': head + rest[:25] + record(heard[0][0], request(b'another.')) + rest[25:],
        'every record twice': head + b''.join(2 * record(t, data) for t, data in heard),
        'records turned round': head + b''.join(record(t, data) for t, data in reversed(heard)),
        'a record in the other byte order': head + swapped(rest, 16),
        'a header in the other byte order': swapped(head, 24) + rest,
        '65,536 bytes': filled(EXAMPLE, LONGEST),
        '65,536 bytes, the example last': filled(head, LONGEST - len(rest)) + rest,
        '65,537 bytes': filled(EXAMPLE, LONGEST + 1),
        '4,094 empty records': head + bytes(16) * 4094 + bytes(8),
        'no place for the last of 33 orders': gap(5, 33, 10 ** 9),
        '4,095 keys lost': gap(12, 1, 0),
    }
    for name, capture in (*given.items(), *schedules()):
        yield name, EXAMPLE_PAIR, capture


def in_rows(program, output):
    """an output as it can be shown: lines of text, or rows of 16 bytes in hexadecimal"""
    rows = output.decode(errors='replace').split('\n') if program != 'replay' else [
        output[at:at + 16].hex(' ') for at in range(0, len(output), 16)]
    return rows + ['(the end)']


def as_text(lines):
    return ''.join(line + '\n' for line in lines).encode()


def refusal(number, capture):
    """the words with which a capture is refused"""
    too_long = len(capture) > LONGEST
    return f'refused {number}, {f"the input has more than {LONGEST} bytes" if too_long else MEANING[number]}'


class Programs:
    """the programs, run in a folder of their own"""

    def __init__(self, files, work):
        self.files, self.work = files, work
        # captures on which replay and explain agree, captures on which orders does, and failing runs of one program
        self.compared, self.listed, self.failed = 0, 0, 0
        # of the captures that orders lists, those that are big-endian, and those with an unread rest
        self.big, self.unread = 0, 0

    def run(self, program, capture, *arguments):
        return subprocess.run([self.files[program], *arguments], input=capture, capture_output=True, cwd=self.work,
                              timeout=60)

    def run_in_shell(self, command, program, capture):
        """a run by a command of the shell, in which "$0" is the program"""
        return subprocess.run(['sh', '-c', command, self.files[program]], input=capture, capture_output=True,
                              cwd=self.work, timeout=60)

    def differ(self, name, program, capture, wanted, ran):
        """ends the check: what was given and what came of it stays in a folder"""
        kept = pathlib.Path(tempfile.mkdtemp(prefix='replays-'))
        if (self.work / 'pair.key').exists():
            shutil.copy(self.work / 'pair.key', kept)
        for file, data in dict(capture=capture, wanted=wanted, stdout=ran.stdout, stderr=ran.stderr).items():
            (kept / file).write_bytes(data)
        print(f'{name}: {program} ends with status {ran.returncode} and differs from the model; see {kept}')
        if ran.stderr:
            print(f'  it says: {ran.stderr.decode(errors="replace").strip()}')
        wanted_rows, rows = in_rows(program, wanted), in_rows(program, ran.stdout)
        at = next((x for x, pair in enumerate(zip(wanted_rows, rows)) if pair[0] != pair[1]), None)
        if at is not None:
            print(f'  row {at + 1} has to be: {wanted_rows[at]}\n  and is: {rows[at]}')
        sys.exit(1)

    def gives(self, name, program, capture, wanted, *arguments):
        """a run of a program ends with status 0 and gives what is wanted, which is answered"""
        ran = self.run(program, capture, *arguments)
        if ran.returncode != 0 or ran.stdout != wanted or ran.stderr:
            self.differ(name, program, capture, wanted, ran)
        return ran.stdout

    def failed_with(self, name, program, capture, words, ran):
        """a run of a program has ended with status 1, and has only said these words"""
        if ran.returncode != 1 or ran.stdout or ran.stderr != f'{program}: {words}\n'.encode():
            self.differ(f'{name}, which has to end with "{words}"', program, capture, b'', ran)
        self.failed += 1

    def fails(self, name, capture, words, programs=('replay', 'explain')):
        for program in programs:
            self.failed_with(name, program, capture, words, self.run(program, capture))

    def refuse(self, name, capture, number):
        self.fails(name, capture, refusal(number, capture), ('replay', 'explain', 'orders'))

    def lists(self, name, capture):
        """orders gives what the model gives"""
        self.gives(name, 'orders', capture, as_text(orders(capture)))
        self.listed += 1
        order, _, read = records(capture)
        self.big += order == 'big'
        self.unread += read < len(capture)

    def compare(self, name, pair, capture):
        """the programs give what the model gives, which is answered as the text of explain"""
        (self.work / 'pair.key').write_bytes(pair)
        try:
            text = explain(pair, capture)
        except Refused as refused:
            self.refuse(name, capture, refused.args[0])
            return []
        # explain first, because it tells where a difference begins
        self.gives(name, 'explain', capture, as_text(text))
        output = self.gives(name, 'replay', capture, replay(pair, capture)[0])
        self.compared += 1
        self.lists(f'what replay gives on {name}', output)
        # orders takes any capture, and some of these are big-endian or have an unread rest
        self.lists(name, capture)
        return text

    def rehearse(self):
        """a rehearsal prints and saves what the model gives, and what it saved is a capture like others"""
        text, heard = rehearsal()
        file = 'heard.pcap'
        text += f'What carriage A heard is in {file}.\nThe key of its pair is in {file}.key.\n'
        self.gives('a rehearsal', 'rehearse', b'', text.encode(), '--capture', file)
        saved, key = (self.work / file).read_bytes(), (self.work / f'{file}.key').read_bytes()
        if saved != header() + b''.join(record(t, data) for t, data in heard) or key != PAIR:
            sys.exit(f'what rehearse saves is not what the model gives: {saved.hex()} and the key {key.hex()}')
        self.compare('the capture of a rehearsal', key, saved)

    def want_of_memory(self):
        """a limit of memory that is at most 16 kB below one that suffices ends a program in words"""
        capture = filled(EXAMPLE, LONGEST)
        wanted_of = dict(explain=as_text(explain(EXAMPLE_PAIR, capture)), orders=as_text(orders(capture)),
                         replay=replay(EXAMPLE_PAIR, capture)[0])
        for program, wanted in wanted_of.items():
            # what suffices depends on the machine, and far below it the program is not even loaded
            few, enough, last = 0, 2 ** 16, None
            while enough - few > 16:
                limit = (few + enough) // 2
                ran = self.run_in_shell(f'ulimit -v {limit} && exec "$0"', program, capture)
                if ran.returncode == 0 and ran.stdout == wanted:
                    enough = limit
                else:
                    few, last = limit, ran
            if last is None:
                print(f'replays: no limit of memory stops {program} here, so its want of memory is not tried')
                continue
            self.failed_with(f'{few} kB of memory', program, capture, 'there is not enough memory', last)

    def failures(self):
        key = self.work / 'pair.key'
        key.unlink()
        self.fails('no pair.key', EXAMPLE, 'pair.key cannot be read: No such file or directory (os error 2); '
                                           'it must be in this folder, and have 16 bytes')
        for length in (0, 15, 17, 32):
            key.write_bytes(bytes(length))
            self.fails(f'pair.key of {length} bytes', EXAMPLE,
                       f'pair.key must have 16 bytes, and has {length if length < 16 else "more"}')
        key.write_bytes(EXAMPLE_PAIR)
        for length in (LONGEST + 1, 2 * LONGEST, 10 ** 6):
            self.refuse(f'{length} bytes', EXAMPLE + bytes(length - len(EXAMPLE)), 21)
        wrong = {
            'no input': b'',
            'one byte': EXAMPLE[:1],
            'a header without its last byte': EXAMPLE[:23],
            'link type 148': header(link=148),
            'link type 1': header('big', link=1),
            'link type 147 in the other byte order': header(link=147 << 24),
            'version 3.4': EXAMPLE[:4] + b'\x03' + EXAMPLE[5:],
            'version 2.5': EXAMPLE[:6] + b'\x05' + EXAMPLE[7:],
            'the magic of nanoseconds': bytes.fromhex('4d3cb2a1') + EXAMPLE[4:],
            'the magic of the other byte order': header('big')[:4] + EXAMPLE[4:],
            'no magic': bytes(4) + EXAMPLE[4:],
            'a text': b'records 4, bytes read 186 of 186',
        }
        for name, capture in wrong.items():
            self.refuse(name, capture, 21)
        for program in ('replay', 'explain', 'orders'):
            for name, command, words in (
                    ('a full device', 'exec "$0" >/dev/full',
                     'standard output cannot be written: No space left on device (os error 28)'),
                    ('a closed standard output', 'exec "$0" >&-',
                     'standard output cannot be written: Bad file descriptor (os error 9)'),
                    ('a closed standard input', 'exec "$0" <&-',
                     'standard input cannot be read: Bad file descriptor (os error 9)')):
                ran = self.run_in_shell(command, program, EXAMPLE)
                self.failed_with(name, program, EXAMPLE, words, ran)
        self.want_of_memory()

    def by_tcpdump(self):
        """another program reads the output on the sample; from standard input, as it may give up its rights to files"""
        if not shutil.which('tcpdump'):
            return 'tcpdump is not installed, so it was not asked to read the output'
        shutil.copy(SAMPLE / 'pair.key', self.work)
        capture = (SAMPLE / 'carriage.pcap').read_bytes()
        proved = len(records(replay((SAMPLE / 'pair.key').read_bytes(), capture)[0])[1])
        output = self.run('replay', capture).stdout
        ran = subprocess.run(['tcpdump', '-nn', '-tt', '-r', '-'], input=output, capture_output=True, timeout=60)
        # a packet of a private link type is one line, with its bytes on indented lines behind it
        printed = [line for line in ran.stdout.decode(errors='replace').splitlines() if not line[:1].isspace()]
        if ran.returncode or len(printed) != proved:
            sys.exit(f'tcpdump ends with status {ran.returncode} and prints {len(printed)} packets, not {proved}:\n'
                     f'{ran.stderr.decode(errors="replace")}')
        return f'tcpdump reads the output on the sample as {proved} packets'


def main():
    count = int(sys.argv[1]) if len(sys.argv) > 1 else 200
    seed = int(sys.argv[2]) if len(sys.argv) > 2 else random.SystemRandom().randrange(2 ** 32)
    folder = pathlib.Path(sys.argv[3]).resolve() if len(sys.argv) > 3 else None
    files = {program: folder / program if folder else ROOT / 'crates' / program / 'out' / program
             for program in ('replay', 'explain', 'orders', 'rehearse')}
    for file in files.values():
        if not file.exists():
            sys.exit(f'{file} is not there')
    print(f'replays: seed {seed}')
    rng = random.Random(seed)
    with tempfile.TemporaryDirectory() as work:
        programs = Programs(files, pathlib.Path(work))
        for name, pair, capture in always():
            programs.compare(name, pair, capture)
        programs.rehearse()
        texts = ['\n'.join(programs.compare(f'random capture {x + 1} of seed {seed}', *random_capture(rng)))
                 for x in range(count)]
        programs.failures()
        print(f'replays: {programs.by_tcpdump()}')
    if count:
        joined = 100 * sum('the node has joined\n' in text for text in texts) // count
        proved = 100 * sum(', true, ' in text for text in texts) // count
        met = sorted({int(number) for text in texts for number in re.findall(r': refused (\d+),', text)})
        print(f'replays: of 100 random captures {joined} join and {proved} give true orders; '
              f'refusals met: {" ".join(map(str, met))}')
    print(f'replays: of the captures that orders lists {programs.big} are big-endian and '
          f'{programs.unread} have an unread rest')
    print(f'replays: replay and explain agree with the model on {programs.compared} captures, orders on '
          f'{programs.listed}, and {programs.failed} failing runs are as they have to be')


if __name__ == '__main__':
    main()
