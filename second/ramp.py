#!/usr/bin/env python3
"""The ramp once more, as plainly as can be: expected values for the tests of crates/ramp and for crates/bench/stdout.

    ramp.py rate MODE L A V LEVEL     rate and wait
    ramp.py ceiling L A V             the least level whose rate is V, by bisection over the rate
    ramp.py move MODE L A V N         a row for each pulse, as the bench prints it
    ramp.py root N                    the whole root
"""
import sys
from math import isqrt


def rate(mode, low, acc, speed, level):
    if mode == "low":
        return low
    if speed <= low:
        return speed
    return min(speed, isqrt(low * low + 2 * acc * (level + (1 if low == 0 else 0))))


def ceiling(mode, low, acc, speed):
    if mode == "low":
        return 0
    lo, hi = 0, 1 << 50
    while lo < hi:
        mid = (lo + hi) // 2
        if rate(mode, low, acc, speed, mid) == speed:
            hi = mid
        else:
            lo = mid + 1
    return lo


def levels(top, n):
    last, out = None, []
    for left in range(n, 0, -1):
        last = 0 if last is None else min(last + 1, top, left - 1)
        out.append(last)
    return out


def main(args):
    what, nums = args[0], [int(a) for a in args[1:] if a.lstrip("-").isdigit()]
    if what == "root":
        print(isqrt(nums[0]))
    elif what == "rate":
        r = rate(args[1], *nums)
        print(r, 15_000_000 // r)
    elif what == "ceiling":
        print(ceiling("high", *nums))
    elif what == "move":
        low, acc, speed, n = nums
        ticks, best = 0, 0
        for k, s in enumerate(levels(ceiling(args[1], low, acc, speed), n), 1):
            r = rate(args[1], low, acc, speed, s)
            print("pulse", k, s, r, 15_000_000 // r, ticks)
            ticks += 15_000_000 // r
            best = max(best, r)
        print(f"highest rate {best}, time {ticks // 15_000} ms, {ticks} ticks")


if __name__ == "__main__":
    main(sys.argv[1:])
