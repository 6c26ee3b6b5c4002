"""Lines that are not as they have to be, at every kind of place: answers for judge, coins for house and in DICE."""
import protocol
import shapes
from harness import column, file, prints
from protocol import P

SHAPE = "several copies"  # two layers, with variables of copies, of x and of y in both
LARGE = 10**40


def example():
    return shapes.example(SHAPE, "lines", shapes.fair)


# ---- what the house may say where an answer of the given numbers is due
ANSWERS = {
    "one number too few": lambda numbers: numbers[:-1],
    "one number too many": lambda numbers: numbers + [0],
    "a number twice as often": lambda numbers: numbers + numbers,
    "p in place of the first number": lambda numbers: [P] + numbers[1:],
    "p added to the first number": lambda numbers: [numbers[0] + P] + numbers[1:],
    "p added to the last number": lambda numbers: numbers[:-1] + [numbers[-1] + P],
    "2^31 in place of the last number": lambda numbers: numbers[:-1] + [2**31],
    "2^32 added to the first number": lambda numbers: [numbers[0] + 2**32] + numbers[1:],
    "2^64 added to the last number": lambda numbers: numbers[:-1] + [numbers[-1] + 2**64],
    "a number of 41 digits": lambda numbers: numbers[:-1] + [LARGE],
    "a word that is no number": lambda numbers: numbers[:-1] + ["x"],
    "a number with a letter": lambda numbers: [f"{numbers[0]}a"] + numbers[1:],
    "a minus sign": lambda numbers: [f"-{numbers[0]}"] + numbers[1:],
    "a plus sign": lambda numbers: [f"+{numbers[0]}"] + numbers[1:],
    "a fraction": lambda numbers: numbers[:-1] + [f"{numbers[-1]}.0"],
    "a comma": lambda numbers: [f"{numbers[0]},"] + numbers[1:],
    "a word more": lambda numbers: numbers + ["x"],
    "an empty line": lambda numbers: [],
    "spaces only": lambda numbers: ["  "],
    "a comment": lambda numbers: ["# comment"],
    "a comment before the numbers": lambda numbers: ["#"] + numbers,
    "a refusal of the house": lambda numbers: ["no 3"],
    "believed": lambda numbers: ["believed"],
    "a tab between numbers": lambda numbers: ["\t".join(str(n) for n in numbers)],
    "no ASCII": lambda numbers: ["\u0663"] + numbers[1:],
}


def places(found):
    """The number of an answer of every kind: first and later variables of c, x and y, and the values, in both layers."""
    copies, start = found.circuit.copies, 0
    for i in range(len(found.circuit.layers)):
        below, variables = protocol.size_below(found.circuit, i), protocol.variables(found.circuit, i)
        for variable in (0, copies - 1, copies, copies + below, variables - 1, variables):
            yield start + variable
        start += variables + 1


def answer_is_wrong(k, word):
    found = example()
    lines = found.lines()
    lines[k] = " ".join(str(n) for n in ANSWERS[word](found.answers[k]))
    given = "".join(text + "\n" for text in lines)
    prints("judge", found.judge_files, given, found.said(k) + f"not believed, {found.place(k)}\n", 1)


def answer_is_wrong_everywhere(word):
    for k in places(example()):
        answer_is_wrong(k, word)


def lines_end(k, end=""):
    """The house's lines end before answer k, or within it."""
    found = example()
    given = "".join(text + "\n" for text in found.lines()[:k]) + end
    prints("judge", found.judge_files, given, found.said(k) + f"not believed, {found.place(k)}\n", 1)


def lines_end_everywhere():
    for k in range(len(example().answers)):
        lines_end(k)
        lines_end(k, "1 2 3")


# ---- lines that are written otherwise and say the same
def same_lines(change):
    found = example()
    prints("judge", found.judge_files, change(found.lines()), column(found.coins) + "believed\n", 0)


SAME_LINES = {
    "spaces before, between and after": lambda lines: "".join("  " + text.replace(" ", "   ") + " \n" for text in lines),
    "zeros in front": lambda lines: "".join(" ".join("000" + n for n in text.split()) + "\n" for text in lines),
    "carriage returns": lambda lines: "".join(text + "\r\n" for text in lines),
    "no line end after the last answer": lambda lines: "\n".join(lines),
    "more lines after the last answer": lambda lines: "\n".join(lines + ["1 2 3 4", "x", ""]),
}

# ---- what may come where the house waits for a coin
COINS = {
    "an empty line": ("\n", 5),
    "spaces only": ("   \n", 5),
    "two numbers": ("1 2\n", 5),
    "two numbers, one of p": (f"1 {P}\n", 5),
    "a word that is no number": ("x\n", 5),
    "a number with a letter": ("12x\n", 5),
    "a minus sign": ("-1\n", 5),
    "a fraction": ("1.5\n", 5),
    "a comment": ("# 1\n", 5),
    "not believed": ("not believed, layer 0, variable 0\n", 5),
    "believed": ("believed\n", 5),
    "a refusal of the judge": ("no 2\n", 5),
    "a tab": ("\t1\n", 5),
    "the end of input": ("", 2),
    "p": (f"{P}\n", 3),
    "2^31": (f"{2**31}\n", 3),
    "2^32": (f"{2**32}\n", 3),
    "2^64": (f"{2**64}\n", 3),
    "a number of 41 digits": (f"{LARGE}\n", 3),
}


def coin_is_wrong(word):
    """The house prints its answers so far and then the refusal, wherever the coin was due."""
    found, (text, number) = example(), COINS[word]
    for k in (0, 1, found.first - 1, found.first, found.first + 1, len(found.coins) // 2, len(found.coins) - 1):
        lines = found.lines()[: max(0, k - found.first + 1)] if k >= found.first else []
        answers = "".join(line + "\n" for line in lines)
        after = column(found.coins[k:]) if text else ""
        prints("house", found.house_files, column(found.coins[:k]) + text + after, answers + f"no {number}\n", 1)


def same_coins(change):
    found = example()
    prints("house", found.house_files, change(found.coins), "".join(text + "\n" for text in found.lines()), 0)


SAME_COINS = {
    "spaces and zeros": lambda coins: "".join(f"  00{coin}  \n" for coin in coins),
    "carriage returns": lambda coins: "".join(f"{coin}\r\n" for coin in coins),
    "no line end after the last coin": lambda coins: column(coins)[:-1],
    "more lines after the last coin": lambda coins: column(coins) + "believed\nx\n",
}

# ---- what may stand in DICE where a coin is due: the file's text from there on, and the refusal
DICE = {
    "the end of the file": ("", 2),
    "only spaces, line ends and comments": (" \n\n# 5\n \r\n#", 2),
    "a word that is no number": ("x\n1\n", 5),
    "a number with a letter": ("1x 1\n", 5),
    "a minus sign": ("-1\n", 5),
    "a # within a line": (" # 1\n", 5),
    "a tab": ("\t1\n", 5),
    "p": (f"{P}\n1\n", 3),
    "2^31": (f"{2**31} 1\n", 3),
    "2^32": (f"{2**32}\n", 3),
    "2^64": (f"{2**64}\n", 3),
    "a number of 41 digits": (f"{LARGE}", 3),
}


def dice_are_wrong(word):
    """Judge prints the coins before and then the refusal, wherever the coin was due; a wrong answer comes first."""
    found, (text, number) = example(), DICE[word]
    for k in (0, 1, found.first - 1, found.first, found.first + 1, len(found.coins) - 1):
        files = [*found.judge_files[:3], file(column(found.coins[:k]) + text)]
        given = "".join(line + "\n" for line in found.lines())
        prints("judge", files, given, column(found.coins[:k]) + f"no {number}\n", 1)
        if k >= found.first:
            lines = found.lines()[: k - found.first]
            given = "".join(line + "\n" for line in lines) + "1 2 3\n"
            wanted = column(found.coins[:k]) + f"not believed, {found.place(k - found.first)}\n"
            prints("judge", files, given, wanted, 1)


def dice_end_within_a_line():
    """The last number of DICE has no line end after it: it is a coin, once, and the one after it is missing."""
    found = example()
    given = "".join(line + "\n" for line in found.lines())
    for k in range(1, len(found.coins)):
        files = [*found.judge_files[:3], file(column(found.coins[:k])[:-1])]
        prints("judge", files, given, column(found.coins[:k]) + "no 2\n", 1)


# what may be left in DICE after the last coin, and what is then printed in place of believed
LEFT = {
    "a number": ("5\n", "no 2", 1),
    "a number of p or more": (f"{P}\n", "no 2", 1),
    "a number of 41 digits": (f"{LARGE}\n", "no 2", 1),
    "two numbers": ("5 6", "no 2", 1),
    "a word that is no number": ("x\n", "no 5", 1),
    "spaces, line ends and comments": ("  \n\n# 5\n#", "believed", 0),
}


def left_in_dice(word):
    found, (text, wanted, status) = example(), LEFT[word]
    given = "".join(line + "\n" for line in found.lines())
    files = [*found.judge_files[:3], file(column(found.coins) + text)]
    prints("judge", files, given, column(found.coins) + wanted + "\n", status)
    # not believed at the inputs stays so
    inputs = [(found.inputs[0] + 1) % P] + found.inputs[1:]
    files = [found.circuit_file, file(inputs), found.outputs_file, file(column(found.coins) + text)]
    prints("judge", files, given, column(found.coins) + "not believed, layer 2, inputs\n", 1)


def same_dice(text):
    found = example()
    given = "".join(line + "\n" for line in found.lines())
    files = [*found.judge_files[:3], file(text(found.coins))]
    prints("judge", files, given, column(found.coins) + "believed\n", 0)


SAME_DICE = {
    "in one line": lambda coins: " ".join(map(str, coins)),
    "comments and empty lines": lambda coins: "# dice\n\n" + "".join(f"  0{coin} \r\n# 7\n#\n\n" for coin in coins),
}


def cases():
    for word in ANSWERS:
        yield f"judge, a wrong answer everywhere: {word}", lambda word=word: answer_is_wrong_everywhere(word)
    yield "judge, the house's lines end everywhere", lines_end_everywhere
    for word, change in SAME_LINES.items():
        yield f"judge, answers with {word}", lambda change=change: same_lines(change)
    for word in COINS:
        yield f"house, a wrong coin everywhere: {word}", lambda word=word: coin_is_wrong(word)
    for word, change in SAME_COINS.items():
        yield f"house, coins with {word}", lambda change=change: same_coins(change)
    for word in DICE:
        yield f"judge, DICE wrong everywhere: {word}", lambda word=word: dice_are_wrong(word)
    yield "judge, DICE ends within a line", dice_end_within_a_line
    for word in LEFT:
        yield f"judge, left in DICE: {word}", lambda word=word: left_in_dice(word)
    for word, text in SAME_DICE.items():
        yield f"judge, DICE {word}", lambda text=text: same_dice(text)
