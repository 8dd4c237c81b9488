"""The sample captures that the repository ships: what a carriage heard on a poor radio link, by the model.

`samples.py` writes the folder sample; `samples.py --check` says whether it is as this file makes it."""
import pathlib
import sys

from captures import header, record
from model import Base, Rc5, down, request

HERE = pathlib.Path(__file__).resolve().parent.parent / 'sample'
PAIR = bytes.fromhex('9d41c07be2563fa8147fd2086bb5e93c')
OTHER_PAIR = bytes.fromhex('2b8e6410fd97ca5371b60ce83f49a5d2')
LAST = bytes.fromhex('5ac31f7780e64b29d40b96ee31a8f75d')
NONCE = bytes.fromhex('00000000000001a7')
OTHER_NONCE = bytes.fromhex('000000000000004c')
START, DURATION, DELAY = 1000000, 100000, 2
AHEAD = 7250000  # how far the node's clock is ahead of the base's
FLIGHT = 400  # from the base's reading to the end of the packet at the node


def changed(data, at):
    """the bytes with one bit other than it was, as noise leaves them"""
    return data[:at] + bytes([data[at] ^ 1]) + data[at + 1:]


def heard():
    """the readings and bytes of the records; the times in here are the base's"""
    base = Base(Rc5, [down(Rc5, LAST, 16 - m) for m in range(17)], START, DURATION, DELAY)
    log = []

    def asks(time, nonce):
        log.append((time + AHEAD, request(nonce)))

    def hears(time, data):
        log.append((time + FLIGHT + AHEAD, data))

    def order(time, payload):
        data = base.order(time, payload)
        hears(time, data)
        return data

    def key(time):
        data = base.disclose(time)
        hears(time, data)
        return data

    # the carriage is switched on while the base is in its interval 2, and asks in interval 3
    order(1210000, b'cast on 120')
    first = key(1300500)
    hears(1305000, base.answer(1305000, OTHER_PAIR, request(OTHER_NONCE)))
    asks(1310000, NONCE)  # lost on its way to the base, so asked once more
    asks(1330000, NONCE)
    answer = base.answer(1331500, PAIR, request(NONCE))
    hears(1331000, changed(answer, 24))  # forged: another key, under the tag of the true one
    hears(1331500, answer)

    racking = order(1340000, b'racking +2')
    confirm = order(1345000, b'confirm course 41')
    hears(1350000, racking)
    key(1400500)
    order(1410000, b'reverse')
    hears(1420000, b'')
    hears(1425000, bytes.fromhex('f00dfeed55aa'))
    order(1430000, bytes.fromhex('00183c7effe7c381'))  # a needle selection

    # three keys in a row are lost
    base.disclose(1500500)
    damaged = base.order(1510000, b'racking -1')
    hears(1510000, changed(damaged, 13))
    hears(1515000, damaged)
    hears(1540000, confirm)  # a late copy, whose key could be public by now
    base.disclose(1600500)
    order(1610000, b'stitch cam 9.5')
    hears(1620000, b'\x04\x00\x04' + bytes(range(16)))  # a forged key of an interval that is due
    hears(1640000, b'\x04\x00\x06' + bytes(range(16)))  # and one that is ahead of its time
    hears(1645000, b'\x03\x00\x00\x00halt' + bytes(8))  # a forged order of an interval that no base makes
    base.disclose(1700500)
    stop = order(1710000, b'stop at end')
    hears(1720000, stop[:11])

    # the next key proves what was held since interval 3
    key(1800500)
    hears(1805000, first)
    hears(1790000, stop)  # written into the capture behind a later record
    hears(1815000, base.answer(1815000, OTHER_PAIR, request(OTHER_NONCE)))
    hears(1820000, request(OTHER_NONCE))
    order(1830000, b'confirm course 42')
    key(1900500)
    order(1910000, b'reverse')
    key(2000500)
    key(2100500)
    order(2110000, b'racking 0')
    return log


def files():
    log = heard()
    little = header() + b''.join(record(t, data) for t, data in log)
    big = header('big', 3600, 1, 65535) + b''.join(record(t, data, 'big') for t, data in log)
    # the recording was stopped within the last record
    return {'carriage.pcap': little[:-5], 'carriage-big-endian.pcap': big[:-5], 'pair.key': PAIR}


def main():
    for name, data in files().items():
        if sys.argv[1:] != ['--check']:
            HERE.mkdir(exist_ok=True)
            (HERE / name).write_bytes(data)
        elif not (HERE / name).exists() or (HERE / name).read_bytes() != data:
            sys.exit(f'{HERE / name} is not what checks/samples.py makes')
    print('samples: the folder sample is as the model makes it')


if __name__ == '__main__':
    main()
