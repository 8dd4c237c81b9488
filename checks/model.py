"""An independent model of the ciphers, tags, chains, key sources, packets and the link, written from the published papers and docs/PROTOCOL.md.

It shares no code with the crates: what it computes is held against what they compute."""

MASK = 0xFFFFFFFF


def rotate(x, n):
    n %= 32
    return ((x << n) | (x >> (32 - n))) & MASK if n else x


def rc5_table(key):
    words = [int.from_bytes(key[4 * i:4 * i + 4], 'little') for i in range(4)]
    table = [(0xB7E15163 + i * 0x9E3779B9) & MASK for i in range(26)]
    a = b = i = j = 0
    for _ in range(78):
        a = table[i] = rotate((table[i] + a + b) & MASK, 3)
        b = words[j] = rotate((words[j] + a + b) & MASK, (a + b) & MASK)
        i = (i + 1) % 26
        j = (j + 1) % 4
    return table


class Rc5:
    width = 8

    def __init__(self, key):
        self.table = rc5_table(key)

    def encrypt(self, block):
        s = self.table
        a = (int.from_bytes(block[:4], 'little') + s[0]) & MASK
        b = (int.from_bytes(block[4:], 'little') + s[1]) & MASK
        for r in range(1, 13):
            a = (rotate(a ^ b, b) + s[2 * r]) & MASK
            b = (rotate(b ^ a, a) + s[2 * r + 1]) & MASK
        return a.to_bytes(4, 'little') + b.to_bytes(4, 'little')


class Adding:
    width = 16

    def __init__(self, key):
        self.key = key

    def encrypt(self, block):
        return bytes((b + k + 1) % 256 for b, k in zip(block, self.key))


MAKES = {'rc5': Rc5, 'adding': Adding}


def tag(make, key, message):
    cipher = make(key)
    w = make.width
    filled = message + bytes(-len(message) % w)
    state = bytes(w)
    for block in [len(message).to_bytes(w, 'big')] + [filled[i:i + w] for i in range(0, len(filled), w)]:
        state = cipher.encrypt(bytes(x ^ y for x, y in zip(state, block)))
    return state[:8]


def derive(make, key, purpose):
    return tag(make, key, bytes([purpose, 0])) + tag(make, key, bytes([purpose, 1]))


def down(make, key, steps):
    for _ in range(steps):
        key = derive(make, key, 1)
    return key


LENGTHS = {1: (9, 9), 2: (48, 48), 3: (12, 76), 4: (19, 19)}


def packet(data):
    """a packet's kind and fields in words, or its refusal"""
    if not data or data[0] not in LENGTHS:
        return 'refused 1'
    low, high = LENGTHS[data[0]]
    if not low <= len(data) <= high:
        return 'refused 2'

    def number(at, size):
        return int.from_bytes(data[at:at + size], 'big')

    if data[0] == 1:
        return f'request, nonce {data[1:].hex()}'
    if data[0] == 2:
        return (f'answer, time {number(1, 8)}, key {data[9:25].hex()}, interval {number(25, 2)}, '
                f'start {number(27, 8)}, duration {number(35, 4)}, delay {data[39]}, tag {data[40:].hex()}')
    if data[0] == 3:
        return (f'data, interval {number(1, 2)}, number {data[3]}, '
                f'payload {data[4:-8].hex() or "-"}, tag {data[-8:].hex()}')
    return f'key, interval {number(1, 2)}, key {data[3:].hex()}'


def pebbled_steps(k):
    """the steps of each call of a pebbled source over 2^k keys, by moving its levels; the keys do not matter"""
    n = 2 ** k
    levels = {j: [2 ** j, 2 ** j] for j in range(1, k + 1)}  # place, target
    counts = []
    for i in range(1, n + 1):
        steps = 0
        for level in levels.values():
            if level[0] > level[1]:
                level[0] -= 2
                steps += 2
        if i % 2:
            z = ((i + 1) & -(i + 1)).bit_length() - 1
            assert levels[z][0] == i + 1
            steps += 1
        else:
            j = (i & -i).bit_length() - 1
            assert levels[j][0] == i
            if i + 2 * 2 ** j <= n:
                assert any(level[0] == i + 3 * 2 ** j for level in levels.values())
                levels[j] = [i + 3 * 2 ** j, i + 2 * 2 ** j]
            else:
                del levels[j]
        counts.append(steps)
    return counts


def pebbled(make, last, k):
    """each key of the chain with its steps, and the sum of the steps, or the refusal"""
    if not 1 <= k <= 12:
        return 'refused 15'
    keys = [last]
    for _ in range(2 ** k - 1):
        keys.append(derive(make, keys[-1], 1))
    counts = pebbled_steps(k)
    return ''.join(f'{key.hex()} {steps}, ' for key, steps in zip(reversed(keys), counts)) + f'sum {sum(counts)}'


def table(keys):
    if len(keys) not in [2 ** k for k in range(1, 13)]:
        return 'refused 15'
    return ''.join(f'{key.hex()} 0, ' for key in keys) + 'sum 0'


class Refused(Exception):
    """a call's refusal, by its number"""


def ask(*questions):
    """the first question answered no refuses the call"""
    for number, fine in questions:
        if not fine:
            raise Refused(number)


def of_kind(data, kind):
    low, high = LENGTHS[kind]
    ask((1, bool(data) and data[0] == kind), (2, low <= len(data) <= high))


def request(nonce):
    return b'\x01' + nonce


class Receiver:
    """a receiver that joined with an answer"""

    def __init__(self, make, pair, nonce, requested, drift, t, data):
        of_kind(data, 2)
        self.time, self.at = int.from_bytes(data[1:9], 'big'), int.from_bytes(data[25:27], 'big')
        self.first, self.start = self.at, int.from_bytes(data[27:35], 'big')
        self.duration, self.delay = int.from_bytes(data[35:39], 'big'), data[39]
        self.offset = self.time - requested + drift
        ask((3, requested <= t < 2 ** 52), (4, tag(make, derive(make, pair, 3), nonce + data[:40]) == data[40:]),
            (5, 1 <= self.delay <= 16 and self.duration >= 1 and self.at <= 4096 and self.start <= self.time < 2 ** 52))
        # on its own, because there is no interval where the duration is 0
        ask((6, self.at == 0 or self.at + self.delay <= self.interval(self.time)))
        self.make, self.latest, self.newest, self.held = make, t, data[9:25], []

    def interval(self, u):
        return self.first + (u - self.start) // self.duration

    def take(self, t, data):
        of_kind(data, 3)
        m = int.from_bytes(data[1:3], 'big')
        ask((3, self.latest <= t < 2 ** 52), (7, 1 <= m <= 4096),
            (8, self.interval(t + self.offset) < m + self.delay), (9, data not in self.held), (10, len(self.held) < 32))
        self.held.append(data)
        self.latest = t
        return len(self.held)

    def key(self, t, data):
        of_kind(data, 4)
        m = int.from_bytes(data[1:3], 'big')
        ask((3, self.latest <= t < 2 ** 52), (7, 1 <= m <= 4096), (11, m > self.at),
            (12, self.interval(t + self.offset) >= m + self.delay))
        # on its own, because up to 65,535 steps would be taken for a key that is refused without any
        ask((13, down(self.make, data[3:], m - self.at) == self.newest))
        steps, self.at, self.newest, self.latest = m - self.at, m, data[3:], t
        return steps

    def release(self):
        """interval, number, payload and verdict of the packet that goes out, or None"""
        known = [p for p in self.held if int.from_bytes(p[1:3], 'big') <= self.at]
        if not known:
            return None
        data = min(known, key=lambda p: p[1:3])
        self.held.remove(data)
        m = int.from_bytes(data[1:3], 'big')
        key = down(self.make, self.newest, self.at - m)
        right = tag(self.make, derive(self.make, key, 2), data[:-8]) == data[-8:]
        return m, data[3], data[4:-8] if right else b'', right


class Base:
    """a base over one chain, given from K_0 on"""

    def __init__(self, make, keys, start, duration, delay):
        self.make, self.keys, self.start, self.duration, self.delay = make, keys, start, duration, delay
        self.latest, self.last, self.busy, self.made = start, 0, 0, 0

    def interval(self, s):
        return (s - self.start) // self.duration

    def order(self, s, payload):
        m, n = self.interval(s), len(self.keys) - 1
        number = self.made if m == self.busy else 0
        ask((3, self.latest <= s < 2 ** 52), (16, 1 <= m <= n), (17, len(payload) <= 64), (18, number < 256))
        self.latest, self.busy, self.made = s, m, number + 1
        covered = b'\x03' + m.to_bytes(2, 'big') + bytes([number]) + payload
        return covered + tag(self.make, derive(self.make, self.keys[m], 2), covered)

    def disclose(self, s):
        m = min(self.interval(s) - self.delay, len(self.keys) - 1)
        ask((3, self.latest <= s < 2 ** 52), (19, m > self.last))
        self.latest, self.last = s, m
        return b'\x04' + m.to_bytes(2, 'big') + self.keys[m]

    def answer(self, s, pair, data):
        of_kind(data, 1)
        ask((3, self.latest <= s < 2 ** 52))
        self.latest = s
        front = (b'\x02' + s.to_bytes(8, 'big') + self.keys[self.last] + self.last.to_bytes(2, 'big')
                 + (self.start + self.last * self.duration).to_bytes(8, 'big') + self.duration.to_bytes(4, 'big')
                 + bytes([self.delay]))
        return front + tag(self.make, derive(self.make, pair, 3), data[1:] + front)
