"""Coins from bytes."""
import subprocess

import shapes
from harness import column, prints, program, require, run, same
from protocol import P


def word(number):
    return number.to_bytes(4, "little")


MODULUS, BOTH = word(P), word(2**32 - 1)  # both make p, and are passed over

# N, bytes, what is printed, status
CASES = {
    "the lowest byte first": ("1", bytes([1, 2, 3, 4]), column([0x04030201]), 0),
    "the highest bit left out": ("2", bytes([1, 0, 0, 0x80]) + word(2**31 - 2 + 2**31), column([1, 2**31 - 2]), 0),
    "all bytes 0": ("3", bytes(12), column([0, 0, 0]), 0),
    "p passed over": ("2", MODULUS + word(5) + BOTH + BOTH + word(P - 1), column([5, P - 1]), 0),
    "p at the end": ("1", word(7) + MODULUS, column([7]), 0),
    "more bytes than needed": ("1", word(7) + word(8) + b"x", column([7]), 0),
    "no coin of no bytes": ("0", b"", "", 0),
    "no coin of some bytes": ("0", word(7), "", 0),
    "no bytes": ("1", b"", "no 2\n", 1),
    "three bytes": ("1", b"abc", "no 2\n", 1),
    "bytes end within a coin": ("3", word(1) + word(2) + b"\1\0\0", column([1, 2]) + "no 2\n", 1),
    "bytes end after a coin": ("3", word(1) + word(2), column([1, 2]) + "no 2\n", 1),
    "only p": ("1", MODULUS + BOTH, "no 2\n", 1),
    "p in place of the last": ("2", word(1) + MODULUS, column([1]) + "no 2\n", 1),
    "zeros in front of N": ("002", word(1) + word(2), column([1, 2]), 0),
    "N of 2^32 + 1": (str(2**32 + 1), word(1) + word(2), column([1, 2]) + "no 2\n", 1),
    "N of 2^64 + 1": (str(2**64 + 1), word(1) + word(2), column([1, 2]) + "no 2\n", 1),
    **{f"N is {text!r}": (text, word(1) * 4, "no 5\n", 1) for text in ("x", "", "-1", "+1", "1x", "1.0", "1,5", "0x1", "#")},
}


def many():
    """Against the definition, on bytes by chance in which p is frequent."""
    rng = shapes.generator("dice")
    rows = [rng.choice([MODULUS, BOTH, word(rng.randrange(2**32)), word(rng.randrange(2**32))]) for _ in range(20000)]
    coins = [int.from_bytes(row, "little") % 2**31 for row in rows]
    coins = [coin for coin in coins if coin != P]
    prints("dice", [str(len(coins))], b"".join(rows), column(coins), 0)
    prints("dice", [str(len(coins) + 1)], b"".join(rows), column(coins) + "no 2\n", 1)


def endless():
    """It ends although the bytes do not."""
    with open("/dev/zero", "rb") as zeros:
        done = subprocess.run([program("dice"), "3"], stdin=zeros, capture_output=True, timeout=10)
    same((done.returncode, done.stdout), (0, b"0\n0\n0\n"), "dice 3 of endless zeros")


def fair():
    """Of 4,000 coins each of eight equal parts has about 500."""
    with open("/dev/urandom", "rb") as source:
        status, out, _ = run("dice", "4000", given=source.read(17000))
    coins = [int(coin) for coin in out.splitlines()]
    parts = [sum(coin * 8 // P == part for coin in coins) for part in range(8)]
    require(status == 0 and len(coins) == 4000 and min(parts) > 350 and max(parts) < 650, f"parts of {parts}")


def cases():
    for name, case in CASES.items():
        yield f"dice: {name}", lambda case=case: prints("dice", [case[0]], case[1], case[2], case[3])
    yield "dice: 20,000 rows of bytes", many
    yield "dice: endless bytes", endless
    yield "dice: even parts", fair
