"""Files of numbers: how they may be written, and which words are no numbers."""
import shapes
from harness import Process, column, file, line, prints, same
from protocol import words_of


def example():
    return shapes.example("both places the same", "texts", shapes.fair)


# numbers written otherwise
SAME = {
    "one number to a line": lambda numbers: column(numbers),
    "many spaces and empty lines": lambda numbers: "\n\n  " + "   \n \n ".join(map(str, numbers)) + "  \n\n",
    "no line end at the end": lambda numbers: line(numbers),
    "spaces at the end": lambda numbers: line(numbers) + "   ",
    "zeros in front": lambda numbers: " ".join(f"000000000000{n}" for n in numbers),
    "many zeros in front": lambda numbers: " ".join("0" * 100 + str(n) for n in numbers),
    "carriage returns": lambda numbers: "# comment\r\n" + "\r\n".join(map(str, numbers)) + "\r\n",
    "comments between": lambda numbers: "# 1 2 3\n" + "".join(f"{n}\n#\n#x {n} \n" for n in numbers),
    "a comment at the end, with no line end": lambda numbers: line(numbers) + "\n# 5",
    "a comment with other bytes": lambda numbers: b"# \xff\x00\t caf\xc3\xa9 # 7\n" + line(numbers).encode(),
    "a long comment": lambda numbers: "#" + " 7" * 100000 + "\n" + line(numbers),
    "long spaces": lambda numbers: (" " * 10000).join(map(str, numbers)),
}

# texts of no known form, made of the good text
WRONG = {
    "a letter": lambda text: text + " x",
    "a letter after a number": lambda text: text + "x",
    "a letter before a number": lambda text: "x" + text,
    "a minus sign": lambda text: "-" + text,
    "a minus sign alone": lambda text: text + " -",
    "a plus sign": lambda text: "+" + text,
    "a fraction": lambda text: text + ".0",
    "a comma": lambda text: text.replace(" ", ", ", 1),
    "a hexadecimal number": lambda text: text + " 0x1",
    "an exponent": lambda text: text + "e0",
    "an underscore": lambda text: text + "_0",
    "a # after a space": lambda text: " # comment\n" + text,
    "a # after a number": lambda text: text + " # comment\n",
    "a # at the end of a number": lambda text: text + "#\n",
    "a tab": lambda text: text.replace(" ", "\t", 1),
    "a form feed": lambda text: text + "\f",
    "a byte 0": lambda text: text + "\0",
    "a byte order mark": lambda text: "\ufeff" + text,
    "a digit that is no ASCII": lambda text: text + " \u0663",
    "bytes that are no UTF-8": lambda text: text.encode() + b" \xff\xfe",
    "a quotation mark": lambda text: '"' + text + '"',
    "a slash": lambda text: text.encode() + b" 4/",
    "a colon": lambda text: text + " 4:",
}


def contents():
    found = example()
    return [words_of(found.circuit), found.inputs, found.outputs, found.coins]


def read_the_same(write):
    found, given = example(), "".join(text + "\n" for text in example().lines())
    paths = [file(write(numbers)) for numbers in contents()]
    rows = [found.outputs[i : i + 16] for i in range(0, len(found.outputs), 16)]
    prints("run", paths[:2], "", "".join(line(row) + "\n" for row in rows), 0)
    prints("house", paths[:2], column(found.coins), given, 0)
    prints("judge", paths, given, column(found.coins) + "believed\n", 0)


def no_numbers(change):
    """In each file in turn: by 5 at once, for DICE at the latest where the last coin or the end is met."""
    found = example()
    paths, given = found.judge_files, "".join(text + "\n" for text in example().lines())
    for i, numbers in enumerate(contents()[:3]):
        wrong = file(change(line(numbers)))
        for name, count in [("run", 2), ("house", 2), ("judge", 4)]:
            if i < count and not (name != "judge" and i == 2):
                prints(name, [*paths[:i], wrong, *paths[i + 1 : count]], "", "no 5\n", 1)
    with Process("judge", *paths[:3], file(change(line(found.coins)))) as judge:
        for text in given.splitlines():
            try:
                judge.send(text)
            except BrokenPipeError:
                break
        said = judge.line()
        while said is not None and said.isdigit():
            said = judge.line()
        same(said, "no 5", "judge with this in DICE ends with")
        judge.ends(1)


def cases():
    for word, write in SAME.items():
        yield f"files with {word}", lambda write=write: read_the_same(write)
    for word, change in WRONG.items():
        yield f"no numbers: {word}", lambda change=change: no_numbers(change)
