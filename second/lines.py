#!/usr/bin/env python3
"""What a host line orders, by a program of its own: lines in, one a row, answers out as the bench prints them.

With --random N it prints N bench rows instead, and with --check it reads pairs of such rows and answers.
"""
import random
import re
import sys

G = {4, 11, 12, 20, 22, 25, 26, 27, 28, 29, 30, 31, 32, 47, 76, 77, 90, 91}
H = {1, 2, 3, 4, 5, 6, 7, 8, 9, 10, 11, 13, 15, 16, 17, 19, 20, 21, 33, 34, 35, 36}
ASKS = {13, 15, 16, 17, 19, 20, 21}
TOP = 115_000
WIDE = 99_999_999
L = {6: (1, 3), 9: (1, TOP), 11: (1, WIDE), 12: (0, TOP), 13: (1, WIDE), 14: (1, TOP), 17: (-WIDE, WIDE),
     18: (-WIDE, WIDE), 19: (-WIDE, WIDE), 41: (1, 400), 43: (0, 9999), 45: (0, 1), 47: (0, WIDE), 49: (0, 99),
     66: (-WIDE, WIDE), 67: (0, 1), 8: None}
WORD = re.compile(rb"(?P<a>[NGFH])(?P<d>[0-9]*)|(?P<x>X)(?P<s>[+-]?)(?P<e>[0-9]*)|(?P<l>L)(?P<c>[0-9]*) *(?P<t>[+-]?)(?P<f>[0-9]*)")


def tail(digits, width):
    return int(digits[-width:] or b"0")


def read(line):
    if len(line) > 80:
        return "refused 1 at 0"
    if not line.strip(b" "):
        return "refused 3 at 0"
    if line in (b"*", b"$", b"#"):
        return {b"*": "clear", b"$": "hold", b"#": "stop"}[line]
    bang = line[:1] == b"!"
    at = 1 if bang else 0
    words = []
    while at < len(line):
        if line[at] == 32:
            at += 1
            continue
        m = WORD.match(line, at)
        if not m:
            return f"refused 4 at {at + 1}"
        if m["a"]:
            words.append((m["a"].decode(), at + 1, b"", b"", m["d"]))
        elif m["x"]:
            words.append(("X", at + 1, b"", m["s"], m["e"]))
        else:
            words.append(("L", at + 1, m["c"], m["t"], m["f"]))
        at = m.end()
    letters = [w[0] for w in words]
    for i, (letter, place, code, sign, digits) in enumerate(words):
        before, after = letters[:i], letters[i + 1:]
        if letter == "L":
            home = tail(code, 2) == 8
            missing = not code or (not sign if home else not digits)
        else:
            missing = not digits
        if missing:
            return f"refused 5 at {place}"
        if (letter in before or "L" in before or "H" in before or (letter == "L" and before)
                or (letter == "H" and before not in ([], ["N"])) or (letter != "N" and "N" not in before and "N" in after)):
            return f"refused 6 at {place}"
        if bang:
            unnamed = letter != "H" or tail(digits, 2) not in ASKS
        else:
            unnamed = {"G": tail(digits, 2) not in G, "H": tail(digits, 2) not in H, "L": tail(code, 2) not in L}.get(letter, False)
        if unnamed:
            return f"refused 7 at {place}"
        if letter == "N" and not 1 <= tail(digits, 3) <= 400:
            return f"refused 8 at {place}"
        if letter == "L" and not home:
            number = tail(digits, 8) * (-1 if sign == b"-" else 1)
            if not L[tail(code, 2)][0] <= number <= L[tail(code, 2)][1]:
                return f"refused 8 at {place}"
    by = {w[0]: w for w in words}
    if bang:
        return f"transfer H{tail(by['H'][4], 2):02}" if words else "refused 7 at 1"
    line_number = tail(by["N"][4], 3) if "N" in by else None
    if "L" in by:
        _, _, code, sign, digits = by["L"]
        if tail(code, 2) == 8:
            return f"set L08 to {sign.decode()}"
        return f"set L{tail(code, 2):02} to {tail(digits, 8) * (-1 if sign == b'-' else 1)}"
    if "H" in by:
        return f"do H{tail(by['H'][4], 2):02}" + (f" with line {line_number}" if line_number else "")
    if letters == ["N"]:
        return f"set the pointer to line {line_number}"
    text = f"store at line {line_number}:" if line_number else "store at the pointer's line:"
    if "G" in by:
        text += f" G{tail(by['G'][4], 2):02}"
    if "X" in by:
        text += f" X{tail(by['X'][4], 8) * (-1 if by['X'][3] == b'-' else 1):+}"
    if "F" in by:
        text += f" F{tail(by['F'][4], 7)}"
    return text


def some_line(pick):
    if pick.random() < 0.1:
        return bytes(pick.randrange(256) for _ in range(pick.randrange(90)))
    parts = []
    if pick.random() < 0.1:
        parts.append("!")
    for _ in range(pick.choice([1, 1, 1, 2, 2, 3, 4])):
        letter = pick.choice("NNGXFLH")
        digits = "".join(pick.choice("0123456789") for _ in range(pick.choice([0, 1, 2, 2, 3, 4, 9])))
        if letter in "GH" and pick.random() < 0.8:
            digits = f"{pick.choice(sorted(G if letter == 'G' else H)):02}"
        if letter == "X":
            digits = pick.choice(["", "+", "-"]) + digits
        if letter == "L":
            digits = f"{pick.choice(sorted(L)):02}" + pick.choice(["", " ", "  "]) + pick.choice(["", "+", "-"]) + digits
        parts.append(" " * pick.choice([0, 0, 1, 2]) + letter + digits)
    text = "".join(parts) + " " * pick.choice([0, 0, 1])
    if pick.random() < 0.1:
        at = pick.randrange(len(text) + 1)
        text = text[:at] + pick.choice("*$#!+-.xZ\t 7") + text[at:]
    return text.encode()


def main():
    if sys.argv[1:2] == ["--random"]:
        pick = random.Random(sys.argv[3] if len(sys.argv) > 3 else "lines")
        for _ in range(int(sys.argv[2])):
            print("read-hex " + " ".join(f"{b:02X}" for b in some_line(pick)))
        return
    for row in sys.stdin.buffer.read().splitlines():
        words = row.split()
        if words[:1] == [b"read-hex"]:
            print(read(bytes.fromhex(b"".join(words[1:]).decode())))
        elif row.startswith(b"read"):
            print(read(row[5:]))


if __name__ == "__main__":
    main()
