"""Texts and refusals, the same for the four reference programs."""
import os
import sys

sys.path.insert(0, os.path.join(os.path.dirname(os.path.abspath(__file__)), ".."))
import protocol


class Refusal(Exception):
    def __init__(self, number):
        self.number = number


def number_of(word):
    """A decimal number, if it is a large one only its first digits; any other word is refused."""
    if not word.isdigit():
        raise Refusal(5)
    return int(word.lstrip(b"0")[:30] or b"0")


def line_numbers(line):
    """The numbers of a line; a carriage return counts as a space."""
    return [number_of(word) for word in line.rstrip(b"\n").replace(b"\r", b" ").split(b" ") if word]


def numbers_of(text):
    """The numbers of a file's text; lines that begin with # are passed over."""
    return [n for line in text.split(b"\n") if not line.startswith(b"#") for n in line_numbers(line)]


def read_whole(path):
    try:
        with open(path, "rb") as file:
            return numbers_of(file.read())
    except OSError:
        raise Refusal(5)


def check(words, files):
    """The circuit of the words; files are pairs of the numbers and how many a circuit takes of them."""
    circuit = protocol.circuit_of(words)
    if circuit is None:
        raise Refusal(1)
    if any(len(numbers) != count(circuit) for numbers, count in files):
        raise Refusal(2)
    if any(n >= protocol.P for numbers, _ in files for n in numbers):
        raise Refusal(3)
    return circuit


class Dice:
    """Coins out of a file, byte by byte, so that nothing is read before it is asked for."""

    def __init__(self, path):
        try:
            self.file = open(path, "rb", buffering=0)
        except OSError:
            raise Refusal(5)
        self.line_begins = True

    def next(self):
        """The next number, or None at the end of the file."""
        word = b""
        while byte := self.file.read(1):
            if self.line_begins and byte == b"#":
                while byte not in (b"", b"\n"):
                    byte = self.file.read(1)
            self.line_begins = byte == b"\n"
            if byte not in (b" ", b"\r", b"\n", b""):
                word += byte
            elif word:
                break
        return number_of(word) if word else None

    def coin(self):
        coin = self.next()
        if coin is None:
            raise Refusal(2)
        if coin >= protocol.P:
            raise Refusal(3)
        return coin


def say(*words):
    print(*words, flush=True)


def program(usage, main):
    """Runs main over the arguments: status 0 where it returns nothing false, else 1."""
    if len(sys.argv) - 1 != len(usage.split()) - 1:
        print("usage:", usage, file=sys.stderr)
        sys.exit(1)
    try:
        well = main(*sys.argv[1:])
    except Refusal as refusal:
        say("no", refusal.number)
        well = False
    sys.exit(0 if well is not False else 1)
