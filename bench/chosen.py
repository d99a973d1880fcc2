"""Prints a run file with so many inserts (at most 20,000) whose keys are chosen to collide under `Seed::fixed()`, or are random.

    python3 bench/chosen.py chosen|random COUNT

A key of two columns enters the hash as its length and then its values, each by a multiplication that is folded. Where the second
value is the state itself, the state is 0 behind it, whatever the first value was. A seed that is drawn makes another state.
"""
import random, sys

MULTIPLIER, FIRST, MASK = 0x9E3779B97F4A7C15, 0x243F6A8885A308D3, 2**64 - 1
INITIAL = 0x243F6A8885A308D3

SPECIFICATION = """relc 1
col a num
col b num
col c num
fd a b -> c
node root
node n a b c
edge e1 root n hash a b
lock k 1
place e1 k
op ins insert a b
op find query a b -> c
end
work 1
round"""


def written(state, number):
    product = (state ^ number) * (MULTIPLIER ^ 16)
    return (product & MASK) ^ (product >> 64)


def collides_with_all(first):
    """The second value with which the key hashes to what all such keys do."""
    return written(written(written(INITIAL, FIRST), 2), first)


def main():
    if len(sys.argv) != 3 or sys.argv[1] not in ("chosen", "random"):
        sys.exit(__doc__)
    how, count = sys.argv[1], int(sys.argv[2])
    random.seed(1)
    print(SPECIFICATION)
    for number in range(count):
        second = collides_with_all(number) if how == "chosen" else random.getrandbits(64)
        print(f"0 ins {number} {second} 1")
    print("end")


main()
