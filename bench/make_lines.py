#!/usr/bin/env python3
"""Writes many lines for the keeper program, the same ones for the same seed: writes, votes, reads,
stale ones and faulty ones, as hubs would send them."""
import random
import sys


def line(rng, n):
    register, hub, attempt = rng.randrange(4), rng.randrange(1, 16), n + 1
    head = f"{register}\t{hub}\t{attempt}"
    pick = rng.random()
    if pick < 0.30:
        return f"P\t{head}\tw"
    if pick < 0.45:
        return f"P\t{head}\tr"
    if pick < 0.60:
        return f"F\t{head}\t{rng.randrange(1, n + 2)}"
    if pick < 0.95:
        return f"V\t{head}\t{rng.randrange(1, n + 2)}\t{rng.randrange(4_000_000_001)}"
    return rng.choice([f"P\t{head}", f"Q\t{head}\tw", f"F\t{head}\t01", f"F\t64\t{hub}\t{attempt}\t1", ""])


def main():
    count, seed = int(sys.argv[1]), int(sys.argv[2])
    rng = random.Random(seed)
    sys.stdout.writelines(line(rng, n) + "\n" for n in range(count))


main()
