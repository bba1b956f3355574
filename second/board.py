#!/usr/bin/env python3
"""The lines that need no motion, by a program of its own: bench rows in, the bench's answers out (rows line, hex, room, lend)."""
import sys

from lines import L, read

START = {6: 2, 8: 1, 9: 10000, 11: 10000, 12: 3000, 13: 10, 14: 10000, 41: 1}
SIGNED = {17, 18, 19, 66}


class Board:
    def __init__(self):
        self.values = {code: START.get(code, 0) for code in L}
        self.pointer = 1
        self.program = {}
        self.room = 64
        self.lent = 400

    def take(self, line):
        if self.lent != 400:
            return "refused 14 at 0"
        order = read(line)
        words = order.split()
        if words[0] == "refused":
            return order
        if words[0] == "set":
            if words[1] == "the":
                self.pointer = int(words[5])
            else:
                code = int(words[1][1:])
                self.values[code] = {"+": 1, "-": -1}.get(words[3]) if code == 8 else int(words[3])
            return self.answer("")
        if words[0] == "store":
            if words[2] == "line":
                self.pointer = int(words[3][:-1])
            fields = order.split(":")[1].split()
            self.program[self.pointer] = {f[0]: f[1:] for f in fields}
            return self.answer("")
        if words[0] in ("clear", "hold", "stop"):
            return "not yet"
        code = int(words[1][1:])
        if code not in (11, 13, 15, 16):
            return "not yet"
        if "line" in words:
            self.pointer = int(words[-1])
        if code == 11:
            self.program.pop(self.pointer, None)
            return self.answer("")
        if code == 13:
            f = self.program.get(self.pointer, {})
            g = f"G{int(f['G']):02}" if "G" in f else "   "
            x = f"X{int(f['X']):+09}" if "X" in f else " " * 10
            feed = f"F{int(f['F']):07}" if "F" in f else " " * 8
            return self.answer(f"N{self.pointer:03} {g} {x} {feed}\r\n")
        if code == 15:
            return self.answer(f"N{self.pointer:03}\r\n")
        sent = self.values[49]
        if sent not in self.values:
            return self.answer("\r\n")
        v = self.values[sent]
        if sent == 8:
            return self.answer(f"L08 {'-' if v < 0 else '+'}\r\n")
        return self.answer(f"L{sent:02} {f'{v:+09}' if sent in SIGNED else f'{v:08}'}\r\n")

    def answer(self, text):
        if self.room < 64:
            return "refused 2 at 0"
        return f"answer {text[:-2]}" if text else "silent"


def main():
    board = Board()
    for row in sys.stdin.buffer.read().splitlines():
        words = row.split()
        if not words:
            continue
        if words[0] == b"line":
            print(board.take(row[5:]))
        elif words[0] == b"hex":
            print(board.take(bytes.fromhex(b"".join(words[1:]).decode())))
        elif words[0] == b"room":
            board.room = int(words[1])
        elif words[0] == b"lend":
            board.lent = int(words[1])


if __name__ == "__main__":
    main()
