#!/usr/bin/env python3
"""Prints the branches of a generated source, worked out apart from the crate `load_maker`.

usage: scripts/load_branches.py NUMBER SIZE
"""
import sys

MASK = (1 << 64) - 1
MULTIPLIER = 6364136223846793005


class Pcg32:
    """PCG XSH RR 64/32, started as its reference code does."""

    def __init__(self, state, stream):
        self.increment = ((stream << 1) | 1) & MASK
        self.state = 0
        self.word()
        self.state = (self.state + state) & MASK
        self.word()

    def word(self):
        old = self.state
        self.state = (old * MULTIPLIER + self.increment) & MASK
        mixed = (((old >> 18) ^ old) >> 27) & 0xFFFFFFFF
        turn = old >> 59
        return ((mixed >> turn) | (mixed << (-turn & 31))) & 0xFFFFFFFF


def branches(number, size):
    words = Pcg32(number, 0)
    base = words.word() % 510
    for place in range(size):
        if place % 4 == 0:
            condition = f"s.ingress_port == {1 + (base + place // 4) % 510}"
        elif place % 4 == 1:
            condition = "s.ingress_port > 510"
        elif place % 4 == 2:
            port = words.word() % 510
            condition = f"s.ingress_port == {port} && s.ingress_port == {port + 1}"
        else:
            condition = f"m.u == {words.word() % 256}"
        yield f"    if ({condition}) m.y = {words.word() % 256};"


if __name__ == "__main__":
    assert Pcg32(42, 54).word() == 0xA15C02B7, "the first word of PCG's reference code"
    for line in branches(int(sys.argv[1]), int(sys.argv[2])):
        print(line)
