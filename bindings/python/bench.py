#!/usr/bin/env python3
"""Times the Python module: calls a second, and the sorting of 100,000 names beside dnspython, if that is installed.

    python3 bindings/python/bench.py [COUNT]

Both sort the same names, and the orders are compared. Times are of the processor, the best of five rounds (of two, for dnspython).
"""

import random
import sys
import time

import qorshudan


def some_names(count):
    """Names of hosts in a thousand zones, in any order, as texts."""
    draw = random.Random(4471)
    letters = "abcdefghijklmnopqrstuvwxyz0123456789-"

    def label(least, most):
        return "".join(draw.choices(letters, k=draw.randint(least, most)))

    zones = [f"{label(4, 14)}.{label(2, 3)}." for _ in range(1000)]
    return [".".join([label(1, 12) for _ in range(draw.randint(1, 3))] + [draw.choice(zones)]) for _ in range(count)]


def best(call, rounds=5):
    """The least processor time of some rounds, and what was answered."""
    times = []
    for _ in range(rounds):
        start = time.process_time()
        answer = call()
        times.append(time.process_time() - start)
    return min(times), answer


def main():
    count = int(sys.argv[1]) if sys.argv[1:] else 100_000
    texts = some_names(count)
    wires = [qorshudan.wire(text) for text in texts]
    few, few_texts = wires[:20_000], texts[:20_000]
    print(f"Python {sys.version.split()[0]}, qorshudan {qorshudan.version()}")
    for name, call, given in (
        ("check(bytes)", qorshudan.check, few),
        ("key(bytes)", qorshudan.key, few),
        ("key(str)", qorshudan.key, few_texts),
        ("fold(bytes)", qorshudan.fold, few),
        ("successor(bytes)", lambda one: qorshudan.successor(one, b"\0"), few),
        ("successor(str)", lambda one: qorshudan.successor(one, "."), few_texts),
    ):
        seconds, _ = best(lambda: [call(one) for one in given])
        print(f"{name:18} {len(given) / seconds:10,.0f} calls a second")
    seconds, ours = best(lambda: sorted(texts, key=qorshudan.key))
    print(f"sort {count:,} texts by key      {seconds:6.2f} s")
    seconds, _ = best(lambda: sorted(wires, key=qorshudan.key))
    print(f"sort {count:,} wires by key      {seconds:6.2f} s")
    try:
        import dns.name
        import dns.version
    except ImportError:
        print("dnspython is not installed")
        return
    names = [dns.name.from_text(text) for text in texts]
    seconds, ordered = best(lambda: sorted(names, key=qorshudan.key))
    print(f"sort {count:,} dns.name.Name by key {seconds:6.2f} s")
    seconds, theirs = best(lambda: sorted(names), rounds=2)
    print(f"sort {count:,} dns.name.Name by dnspython {dns.version.version}'s comparison {seconds:6.2f} s")
    if [qorshudan.key(one) for one in ours] != [qorshudan.key(one) for one in theirs] or ordered != theirs:
        sys.exit("the two orders differ")


if __name__ == "__main__":
    main()
