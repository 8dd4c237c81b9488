"""An independent model of captures and replay over checks/model.py, and of what `explain` and `orders` print.

Written from docs/PROTOCOL.md; run as a program it holds itself to the complete example there."""
import pathlib
import re
import struct

from model import LENGTHS, Rc5, Receiver, Refused, ask, of_kind, packet

LONGEST = 65536
DRIFT = 10000
MAGIC, LINK = 0xA1B2C3D4, 147
ORDERS = {'little': '<', 'big': '>'}

DOCUMENTS = pathlib.Path(__file__).resolve().parent.parent / 'docs'
# the texts for the operator by their numbers, from the table that decides them
MEANING = {int(number): text for number, text in
           re.findall(r'^\| (\d+) \| `\w+` \| .* \| (.*) \|$', (DOCUMENTS / 'REFUSALS.md').read_text(), re.M)}


def header(order='little', zone=0, accuracy=0, longest=256, link=LINK):
    return struct.pack(ORDERS[order] + 'IHHIIII', MAGIC, 2, 4, zone, accuracy, longest, link)


def record(time, data, order='little'):
    """the record of some bytes heard at a reading in microseconds"""
    return struct.pack(ORDERS[order] + 'IIII', *divmod(time, 10 ** 6), len(data), len(data)) + data


def records(capture):
    """a capture's byte order, its records as pairs of reading and bytes, and how many bytes were read"""
    ask((21, 24 <= len(capture) <= LONGEST))
    order = next((order for order in ORDERS if int.from_bytes(capture[:4], order) == MAGIC), None)
    ask((21, order is not None))
    version, link = struct.unpack(ORDERS[order] + 'HH', capture[4:8]), int.from_bytes(capture[20:24], order)
    ask((21, version == (2, 4) and link == LINK))
    found, at = [], 24
    while at + 16 <= len(capture):
        seconds, micros, stored, original = struct.unpack(ORDERS[order] + 'IIII', capture[at:at + 16])
        if micros >= 10 ** 6 or stored > 256 or original != stored or at + 16 + stored > len(capture):
            break
        found.append((seconds * 10 ** 6 + micros, capture[at + 16:at + 16 + stored]))
        at += 16 + stored
    return order, found, at


class Node:
    """a node that has not asked yet, then requests, then is a receiver"""

    def __init__(self, pair):
        self.pair, self.asked, self.receiver = pair, None, None

    def hear(self, t, data):
        """what comes of a record, and what is released by it; or its refusal"""
        ask((1, bool(data) and data[0] in LENGTHS))
        of_kind(data, data[0])
        return {1: self.request, 2: self.answer, 3: self.data, 4: self.key}[data[0]](t, data)

    def request(self, t, data):
        if self.asked:
            return 'passed over, the node has asked before', []
        self.asked = data[1:], t
        return 'granted, the node asks to join', []

    def answer(self, t, data):
        if not self.asked:
            return 'passed over, the node has not asked yet', []
        if self.receiver:
            return 'passed over, the node has joined before', []
        self.receiver = Receiver(Rc5, self.pair, *self.asked, DRIFT, t, data)
        return 'granted, the node has joined', []

    def data(self, t, data):
        if not self.receiver:
            return 'passed over, the node has not joined yet', []
        return f'granted, held {self.receiver.take(t, data)}', []

    def key(self, t, data):
        if not self.receiver:
            return 'passed over, the node has not joined yet', []
        steps = self.receiver.key(t, data)
        return f'granted, steps {steps}', list(iter(self.receiver.release, None))


def history(pair, heard):
    """each record with what came of it and what was released by it"""
    node = Node(pair)
    for t, data in heard:
        try:
            yield t, data, *node.hear(t, data)
        except Refused as refusal:
            yield t, data, f'refused {refusal.args[0]}, {MEANING[refusal.args[0]]}', []


def replay(pair, capture, room=None):
    """the output capture, and how many bytes of the input were read"""
    _, heard, read = records(capture)
    ask((14, room is None or room >= len(capture)))
    proved = [(t, payload) for t, _, _, released in history(pair, heard) for _, _, payload, right in released if right]
    return header() + b''.join(record(t, payload) for t, payload in proved), read


def named(data):
    """the kind of a record's bytes, with the numbers by which a packet is known"""
    if packet(data).startswith('refused'):
        return 'no packet'
    if data[0] == 1:
        return 'request'
    if data[0] == 2:
        return f'answer, interval {int.from_bytes(data[25:27], "big")}'
    interval = int.from_bytes(data[1:3], 'big')
    return f'data, interval {interval}, number {data[3]}' if data[0] == 3 else f'key, interval {interval}'


def shown(payload):
    """a payload in quotes where it reads the same in every terminal, else in hexadecimal"""
    plain = all(0x20 <= byte <= 0x7e and byte not in b'"\\' for byte in payload)
    return f'"{payload.decode("ascii")}"' if plain else payload.hex()


def shown_time(t):
    """a reading in seconds"""
    return f'{t // 10 ** 6}.{t % 10 ** 6:06}'


def unread(capture, read):
    """the line that tells of bytes that are not read, where there are any"""
    return [f'at byte {read}: an incomplete or irregular record ends the reading, '
            f'{len(capture) - read} bytes are not read'] if read < len(capture) else []


def orders(capture):
    """the lines that `orders` prints for a capture that is granted"""
    _, found, read = records(capture)
    lines = [f'{shown_time(t)} {shown(data)}' for t, data in found]
    return lines + unread(capture, read) + [f'orders {len(found)}']


def explain(pair, capture):
    """the lines that `explain` prints for a capture that is granted"""
    _, heard, read = records(capture)
    lines, proved, written = [], 0, 24
    for t, data, outcome, released in history(pair, heard):
        time = shown_time(t)
        lines.append(f'{time} {named(data)}: {outcome}')
        for interval, number, payload, right in released:
            if right:
                proved, written = proved + 1, written + 16 + len(payload)
            lines.append(f'{time} out: interval {interval}, number {number}, '
                         + (f'true, {shown(payload)}' if right else 'false'))
    return lines + unread(capture, read) + [
        f'records {len(heard)}, bytes read {read} of {len(capture)}, orders {proved}, bytes written {written}']


# the complete example, byte for byte as in the document
EXAMPLE_PAIR = bytes(16)
EXAMPLE = bytes.fromhex('''
d4 c3 b2 a1 02 00 04 00 00 00 00 00 00 00 00 00 00 01 00 00 93 00 00 00
05 00 00 00 40 0d 03 00 09 00 00 00 09 00 00 00
01 00 01 02 03 04 05 06 07
05 00 00 00 28 11 03 00 30 00 00 00 30 00 00 00
02 00 00 00 00 00 03 0d 40 de 1e 55 e0 5f 9c 6f
9a 06 48 1b 35 17 6c 21 4e 00 00 00 00 00 00 00
00 00 00 00 0f 42 40 01 7f 0d 9c 5b 1d 87 b2 0b
06 00 00 00 a0 86 01 00 16 00 00 00 16 00 00 00
03 00 01 00 72 61 63 6b 69 6e 67 20 2b 32 04 5e 2e 04 6f 44 33 87
07 00 00 00 a0 86 01 00 13 00 00 00 13 00 00 00
04 00 01 c3 c8 0a 90 19 20 27 21 95 bc 9d c5 92 65 17 58''')
EXAMPLE_OUTPUT = bytes.fromhex('''
d4 c3 b2 a1 02 00 04 00 00 00 00 00 00 00 00 00 00 01 00 00 93 00 00 00
07 00 00 00 a0 86 01 00 0a 00 00 00 0a 00 00 00
72 61 63 6b 69 6e 67 20 2b 32''')
EXAMPLE_TEXT = '''\
5.200000 request: granted, the node asks to join
5.201000 answer, interval 0: granted, the node has joined
6.100000 data, interval 1, number 0: granted, held 1
7.100000 key, interval 1: granted, steps 1
7.100000 out: interval 1, number 0, true, "racking +2"
records 4, bytes read 186 of 186, orders 1, bytes written 50'''.split('\n')
EXAMPLE_CUT_TEXT = EXAMPLE_TEXT[:3] + [
    'at byte 151: an incomplete or irregular record ends the reading, 34 bytes are not read',
    'records 3, bytes read 151 of 185, orders 0, bytes written 24']


def in_order(capture, order, **fields):
    """the records of a capture in a byte order, behind a header of it"""
    return header(order, **fields) + b''.join(record(t, data, order) for t, data in records(capture)[1])


def refused(call, *given):
    """the number with which a call is refused"""
    try:
        call(*given)
    except Refused as refusal:
        return refusal.args[0]


def main():
    empty, pair = header(), EXAMPLE_PAIR
    assert sorted(MEANING) == list(range(1, 22))
    assert empty.hex(' ') == 'd4 c3 b2 a1 02 00 04 00 00 00 00 00 00 00 00 00 00 01 00 00 93 00 00 00'
    assert replay(pair, empty) == (empty, 24)
    assert replay(pair, EXAMPLE) == replay(pair, EXAMPLE, 186) == (EXAMPLE_OUTPUT, 186)
    assert explain(pair, EXAMPLE) == EXAMPLE_TEXT
    assert replay(pair, EXAMPLE[:-1]) == (empty, 151)
    assert explain(pair, EXAMPLE[:-1]) == EXAMPLE_CUT_TEXT
    assert in_order(EXAMPLE, 'little') == EXAMPLE
    big = in_order(EXAMPLE, 'big', zone=3600, accuracy=9, longest=65535)
    assert big[:4] == bytes.fromhex('a1b2c3d4') and records(big) == ('big', *records(EXAMPLE)[1:])
    assert replay(pair, big) == (EXAMPLE_OUTPUT, 186) and explain(pair, big) == EXAMPLE_TEXT
    assert replay(pair, big[:-1]) == (empty, 151) and explain(pair, big[:-1]) == EXAMPLE_CUT_TEXT
    assert orders(empty) == ['orders 0']
    assert orders(EXAMPLE_OUTPUT) == orders(in_order(EXAMPLE_OUTPUT, 'big')) == ['7.100000 "racking +2"', 'orders 1']
    assert orders(EXAMPLE[:66]) == [
        '5.200000 010001020304050607',
        'at byte 49: an incomplete or irregular record ends the reading, 17 bytes are not read', 'orders 1']
    assert refused(replay, pair, EXAMPLE, 185) == 14
    longest = EXAMPLE + bytes(LONGEST - len(EXAMPLE))
    assert refused(replay, pair, longest) is None
    for wrong in (b'', empty[:-1], header(link=148), b'\x00' + empty[1:], empty[:4] + b'\x03' + empty[5:],
                  empty[:6] + b'\x03' + empty[7:], header('big')[:4] + empty[4:], longest + b'\x00'):
        assert refused(replay, pair, wrong, 0) == 21
    print('captures: the model gives the complete example of docs/PROTOCOL.md')


if __name__ == '__main__':
    main()
