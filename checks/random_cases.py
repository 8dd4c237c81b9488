"""Random cases through the program `vectors`, against the model: random_cases.py [COUNT [SEED]]. Run it after `rt run </dev/null` in crates/vectors."""
import pathlib
import random
import subprocess
import sys

from cases import Sheet, random_case, value

BINARY = pathlib.Path(__file__).resolve().parent.parent / 'crates' / 'vectors' / 'out' / 'vectors'


def main():
    count = int(sys.argv[1]) if len(sys.argv) > 1 else 1000
    seed = int(sys.argv[2]) if len(sys.argv) > 2 else random.SystemRandom().randrange(2 ** 32)
    rng = random.Random(seed)
    sheet = Sheet()
    for _ in range(count):
        words = random_case(rng, longest=300)
        sheet.case(words, value(words))
    read, printed = sheet.texts()
    run = subprocess.run([BINARY], input=read, capture_output=True, text=True, check=True)
    if run.stdout != printed:
        sys.exit(f'seed {seed}: vectors and the model differ')
    print(f'random: {count} cases agree, seed {seed}')


if __name__ == '__main__':
    main()
