"""Refusals of the files that are read whole: each alone, all pairs and triples of them, and before anything is said."""
import itertools

import shapes
from harness import Process, file, folder, line, new_path, prints, require, run, same
from protocol import P, words_of

SHAPE = "size 0 in between"
LARGE = [2**32, 2**32 + 1, 2**64, 2**64 + 1, 10**40]


def example():
    return shapes.example(SHAPE, "refusals", shapes.fair)


# ---- words that are no circuit, or just still one
def layer(size, gate=(0, 0, 0)):
    return [size, *gate * 2**size]


NO_CIRCUITS = {
    "no word": [],
    "one word": [0],
    "two words": [0, 1],
    "no layers": [0, 1, 0],
    "a layer's size is missing": [0, 1, 1],
    "a gate is missing": [0, 1, 1, 0],
    "the last word is missing": [0, 1, 1, 0, 1, 0],
    "a word too many": [0, 1, 1, 0, 1, 0, 1, 0],
    "a second layer that is not there": [0, 1, 2, 0, 1, 0, 1],
    "a kind of 2": [0, 1, 1, 0, 2, 0, 1],
    "left beyond the inputs": [0, 1, 1, 0, 1, 2, 0],
    "right beyond the inputs": [0, 1, 1, 0, 1, 0, 2],
    "right beyond the layer below": [0, 2, 2, 0, 1, 0, 2] + layer(1),
    "right of the last gate beyond the layer below": [0, 2, 2, 1, 1, 0, 0, 1, 0, 2] + layer(1),
    "left beyond the inputs in the last layer": [0, 1, 2] + layer(0) + layer(1)[:-2] + [2, 0],
    "33 layers": [0, 0, 33] + 33 * layer(0),
    "copies and inputs together 17": [10, 7, 1] + layer(0),
    "copies and size together 17": [13, 1, 1] + layer(4),
    "copies and size together 17 below the outputs": [13, 1, 2] + layer(0) + layer(4),
    "inputs 17": [0, 17, 1] + layer(0),
    "size 17": [0, 0, 1] + layer(17),
    "copies 17": [17, 0, 1] + layer(0),
    "more than 2^19 words": [0, 16, 3] + 3 * layer(16),
    "a size of 32": [0, 1, 1, 32, 1, 0, 1],
    "a size of 2^32 - 1": [0, 1, 1, 2**32 - 1, 1, 0, 1],
    "copies of 2^32 - 1, inputs 1": [2**32 - 1, 1, 1, 0, 1, 0, 0],
    "2^32 - 1 layers": [0, 1, 2**32 - 1, 0, 1, 0, 1],
    "left of 2^32 - 1": [0, 1, 1, 0, 1, 2**32 - 1, 0],
    **{f"{n} in place of word {i}": [*[0, 1, 1, 0, 1, 0, 1][:i], n, *[0, 1, 1, 0, 1, 0, 1][i + 1 :]]
       for i in range(7) for n in (LARGE if i in (0, 5) else LARGE[:2])},
}

TWOS = (line([2] * 16) + "\n") * 2**12

# words, and how many inputs of 1; what is printed
LIMITS = {
    "32 layers": ([0, 0, 32] + 32 * layer(0, (1, 0, 0)), 1, "1\n"),
    "copies and inputs together 16": ([0, 16, 1] + layer(0), 2**16, "2\n"),
    "copies and size together 16": ([12, 0, 1] + layer(4), 2**12, TWOS),
    "copies 16": ([16, 0, 1] + layer(0), 2**16, TWOS),
    "size 16": ([0, 0, 1] + layer(16), 1, TWOS),
}


def all_refuse(texts, number):
    """All programs refuse these texts of files, and print nothing else. Judge and house have not been told anything."""
    found = example()
    paths = [file(texts[name]) if name in texts else good for name, good in zip(FILES, found.judge_files)]
    programs = ["judge"] if "outputs" in texts else ["run", "house", "judge"]
    for name in programs:
        count = 3 if name == "judge" else 2
        arguments = paths[:count] + ([found.dice_file] if name == "judge" else [])
        prints(name, arguments, "1\n", f"no {number}\n", 1)


# ---- one fault for each file and number, and all ways to have several
FILES = ["circuit", "inputs", "outputs"]
ORDER = [5, 1, 2, 3]


def faults(name):
    found = example()
    if name == "circuit":
        words = words_of(found.circuit)
        return {None: words, 1: words[:-1], 5: line(words) + " x\n"}
    numbers = found.inputs if name == "inputs" else found.outputs
    return {None: numbers, 2: numbers[:-1], 3: numbers[:-1] + [P], 5: line(numbers[:-1]) + " -1\n"}


def several_faults(name, numbers):
    """The refusal is the first in order, whichever files have the faults."""
    found = example()
    paths = [file(faults(kind)[number]) for kind, number in zip(FILES, numbers)]
    arguments = paths + ([found.dice_file] if name == "judge" else [])
    wanted = next(number for number in ORDER if number in numbers)
    prints(name, arguments, "", f"no {wanted}\n", 1)


def both_in_one_file():
    found = example()
    all_refuse({"inputs": found.inputs[:-2] + [P]}, 2)
    all_refuse({"inputs": found.inputs + [2**32]}, 2)
    all_refuse({"inputs": line([P] + found.inputs) + " x"}, 5)
    all_refuse({"outputs": found.outputs + [P]}, 2)
    all_refuse({"circuit": line(words_of(found.circuit)[:-1] + [2**32]) + " x"}, 5)


def dice_come_last():
    """Whatever is wrong with DICE, the files that are read whole are refused first."""
    found = example()
    for text in ("", "x", f"{P}"):
        for kind, number in [("circuit", 1), ("circuit", 5), ("inputs", 2), ("inputs", 3), ("outputs", 5), ("outputs", 3)]:
            paths = [file(faults(kind)[number]) if kind == name else good for name, good in zip(FILES, found.judge_files)]
            prints("judge", [*paths, file(text)], "", f"no {number}\n", 1)


def refused_before_anything_is_read(name):
    """The refusal comes while standard input is still open and empty."""
    found = example()
    arguments = found.judge_files if name == "judge" else found.house_files
    with Process(name, file([0]), *arguments[1:]) as process:
        process.says("no 1")
        process.ends(1)


# ---- numbers in the inputs and outputs
WRONG_NUMBERS = [P, P + 1, 2**31, 2**32 - 1, *LARGE]


def wrong_number(kind, number):
    numbers = faults(kind)[None]
    for i in {0, len(numbers) // 2, len(numbers) - 1}:
        all_refuse({kind: numbers[:i] + [number] + numbers[i + 1 :]}, 3)


def wrong_length(kind):
    numbers = faults(kind)[None]
    for wrong in ([], numbers[:1], numbers[:-1], numbers + [0], numbers + numbers, numbers * 300):
        all_refuse({kind: wrong}, 2)


def within_limits(words, inputs, wanted):
    prints("run", [file(words), file([1] * inputs)], "", wanted, 0)


def unreadable(path):
    found = example()
    for name, files in [("run", found.house_files), ("house", found.house_files), ("judge", found.judge_files)]:
        for i in range(len(files)):
            status, out, _ = run(name, *files[:i], path, *files[i + 1 :], given="")
            same((status, out), (1, "no 5\n"), f"{name} with file {i} that cannot be read")


def wrong_arguments(name, count):
    for wrong in {0, 1, 2, 3, 4, 5, 6} - {count}:
        status, out, err = run(name, *[example().circuit_file] * wrong)
        same((status, out), (1, ""), f"{name} with {wrong} arguments")
        require("usage" in err.lower() and name in err, f"{name} with {wrong} arguments says no usage: {err!r}")


def cases():
    for word, words in NO_CIRCUITS.items():
        yield f"no circuit: {word}", lambda words=words: all_refuse({"circuit": words}, 1)
    for word, limit in LIMITS.items():
        yield f"still a circuit: {word}", lambda limit=limit: within_limits(*limit)
    for kind in ("inputs", "outputs"):
        yield f"not as many {kind}", lambda kind=kind: wrong_length(kind)
        for number in WRONG_NUMBERS:
            yield f"{number} among the {kind}", lambda kind=kind, number=number: wrong_number(kind, number)
    for name, count in [("run", 2), ("house", 2), ("judge", 3)]:
        for numbers in itertools.product(*[faults(kind) for kind in FILES[:count]]):
            if any(numbers):
                words = ", ".join(f"{kind} {number}" for kind, number in zip(FILES, numbers) if number)
                yield f"{name} refuses: {words}", lambda name=name, numbers=numbers: several_faults(name, numbers)
    yield "two faults in one file", both_in_one_file
    yield "judge refuses files before DICE", dice_come_last
    for name in ("house", "judge"):
        yield f"{name} refuses before anything is read", lambda name=name: refused_before_anything_is_read(name)
    yield "a file that is not there", lambda: unreadable(new_path())
    yield "a folder in place of a file", lambda: unreadable(folder.name)
    for name, count in [("run", 2), ("house", 2), ("judge", 4), ("dice", 1)]:
        yield f"{name}: wrong number of arguments", lambda name=name, count=count: wrong_arguments(name, count)
