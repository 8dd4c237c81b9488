"""What the program `rehearse` has to print, and what its carriage A sends and hears, by the model.

`rehearsal.py write` writes crates/rehearse/stdout; `rehearsal.py` says whether it is as this file has it."""
import pathlib
import sys

from model import Base, Rc5, Receiver, Refused, down, request

HERE = pathlib.Path(__file__).resolve().parent.parent / 'crates' / 'rehearse' / 'stdout'
PAIR = bytes.fromhex('63617272696167652d6f6e652d706169')
MEANING = {
    8: "the packet's interval can already be public: too late to trust",
    9: 'an equal packet is held already',
    11: "the key's interval is not above that of the newest key",
}


class Carriage:
    def __init__(self, say, base, name, shift, time):
        self.say, self.name, self.shift, self.log, self.heard = say, name, shift, [], []
        nonce = time.to_bytes(8, 'big')
        asked = self.hear(time, request(nonce))
        say(f'{time} {name} asks to join: {len(asked)} bytes')
        said = self.hear(time + 1000, base.answer(time + 1000, PAIR, asked))
        say(f'{time + 1000} base answers {name}: {len(said)} bytes')
        self.receiver = Receiver(Rc5, PAIR, nonce, time + shift, 1000, time + 1000 + shift, said)
        say(f'{time + 1000} {name} has joined')

    def hear(self, time, data):
        """what it sends and hears stands in its capture, with its own clock's reading"""
        self.heard.append((time + self.shift, data))
        return data

    def take(self, time, data, what):
        self.hear(time, data)
        try:
            told = f'{self.receiver.take(time + self.shift, data)} held'
        except Refused as refusal:
            told = f'refused {refusal.args[0]}, {MEANING[refusal.args[0]]}'
        self.say(f'{time} {self.name} takes {what}: {told}')

    def key(self, time, data):
        self.hear(time, data)
        head = f'{time} {self.name} hears the key of interval {int.from_bytes(data[1:3], "big")}'
        try:
            self.say(f'{head}: granted, steps {self.receiver.key(time + self.shift, data)}')
        except Refused as refusal:
            self.say(f'{head}: refused {refusal.args[0]}, {MEANING[refusal.args[0]]}')
            return
        while (out := self.receiver.release()) is not None:
            m, number, payload, right = out
            text = f'interval {m}, number {number}, {str(right).lower()}, "{payload.decode()}"'
            self.log.append(text)
            self.say(f'{time} {self.name} releases: {text}')
        self.say(f'{time} {self.name} releases: none')


def rehearsal():
    """the text that is printed, and the readings and bytes of what carriage A sent and heard"""
    lines = []
    say = lines.append
    last = bytes.fromhex('00112233445566778899aabbccddeeff')
    keys = [down(Rc5, last, 16 - m) for m in range(17)]
    base = Base(Rc5, keys, 1000000, 100000, 2)
    say('The base starts at 1000000; an interval lasts 100000; keys are disclosed 2 intervals later.')

    def order(time, payload):
        data = base.order(time, payload.encode())
        say(f'{time} base makes "{payload}": {len(data)} bytes')
        return data

    def disclose(time):
        data = base.disclose(time)
        say(f'{time} base discloses the key of interval {int.from_bytes(data[1:3], "big")}')
        return data

    def lost(time):
        disclose(time)
        say(f'{time} the key is lost on the way to both')

    a = Carriage(say, base, 'carriage A', -300000, 1050000)
    early = disclose(1300500)
    a.key(1300600, early)
    b = Carriage(say, base, 'carriage B', 5000000, 1310000)

    def both(time, data, what):
        a.take(time, data, what)
        b.take(time, data, what)

    first = order(1320000, 'racking +2')
    both(1320000, first, 'the order')
    second = order(1330000, 'confirm course 41')
    both(1330000, second, 'the order')
    lost(1400500)
    turn = order(1420000, 'reverse')
    both(1420000, turn, 'the order')
    lost(1500500)
    both(1510000, second, 'a late copy of "confirm course 41"')
    third = order(1520000, 'racking -1')
    both(1520000, third[:12] + bytes([third[12] ^ 1]) + third[13:], 'a damaged copy of the order')
    both(1520000, third, 'the order')
    both(1530000, b'\x03\x00\x05\x00!' + bytes(8), 'a forged order')
    both(1540000, turn, '"reverse" once more')
    lost(1600500)
    key = disclose(1700500)
    a.key(1700600, key)
    b.key(1700600, key)
    a.key(1700700, early)
    for carriage in (a, b):
        say(f'What {carriage.name} released:')
        lines.extend('  ' + line for line in carriage.log)
    assert a.log == b.log
    say('Both released lists are equal.')
    return '\n'.join(lines) + '\n', a.heard


def text():
    return rehearsal()[0]


if __name__ == '__main__':
    if sys.argv[1:] == ['write']:
        HERE.write_text(text())
    elif HERE.read_text() != text():
        sys.exit(f'{HERE} is not what checks/rehearsal.py gives')
    print('rehearsal: crates/rehearse is held to the model')
