"""Files and circuits as large as they may be: right, and soon enough."""
import time

import protocol
import shapes
from harness import SLOW, Process, column, file, line, prints, require, run, same
from protocol import P, coin_count, input_count

SOON = 2.0  # seconds, with slack for a busy machine; measured times stand in the cases' lines

# name: copies, inputs, sizes
LARGE = {
    "2^19 words": (0, 16, [1, 1, 1, 5, 7, 9, 11, 13, 15, 16, 16]),
    "2^16 inputs in 2^16 copies": (16, 0, [0]),
    "2^16 inputs in 2^10 copies": (10, 6, [3, 5, 6]),
    "2^16 inputs in one copy": (0, 16, [14, 15, 16]),
}


def circuit_of(name):
    copies, inputs, sizes = LARGE[name]
    return shapes.random_circuit(shapes.generator("large", name), copies, inputs, sizes, "mixed")


def timed(name, *arguments, given=""):
    start = time.monotonic()
    status, out, _ = run(name, *arguments, given=given)
    seconds = time.monotonic() - start
    require(SLOW or seconds < SOON, f"{name} took {seconds:.2f} seconds")
    return status, out, f"{seconds:.2f} seconds"


def run_is_soon(name):
    circuit, rng = circuit_of(name), shapes.generator("large inputs", name)
    words, inputs = protocol.words_of(circuit), shapes.numbers(rng, input_count(circuit))
    outputs = protocol.evaluate(circuit, inputs)[0]
    rows = "".join(line(outputs[i : i + 16]) + "\n" for i in range(0, len(outputs), 16))
    status, out, took = timed("run", file(words), file(column(inputs)))
    same((status, out), (0, rows), "run")
    return f"{len(words)} words, {len(inputs)} inputs, {took}"


def refusal_is_soon():
    """The last word of a large circuit is wrong; the last number of large inputs is."""
    words = protocol.words_of(circuit_of("2^19 words"))
    same(len(words), 2**19, "words")
    inputs = [1] * 2**16
    same(timed("run", file(words[:-1] + [2**16]), file(inputs))[:2], (1, "no 1\n"), "a wrong last word")
    same(timed("run", file(words + [0]), file(inputs))[:2], (1, "no 1\n"), "a word too many")
    same(timed("run", file(line(words) + " x"), file(inputs))[:2], (1, "no 5\n"), "no number at the end")
    same(timed("run", file(words), file(inputs[:-1] + [P]))[:2], (1, "no 3\n"), "a wrong last input")
    same(timed("run", file(words), file(inputs + [0]))[:2], (1, "no 2\n"), "an input too many")
    same(timed("run", file(words * 4), file(inputs * 4))[:2], (1, "no 1\n"), "four times the words")


def house_and_judge(name):
    """Both programs on a large circuit; the reference's verifier reads along, and one output is then changed."""
    if SLOW:
        return "left out, the reference's prover is slow"
    circuit, rng = circuit_of(name), shapes.generator("large talk", name)
    inputs, coins = shapes.numbers(rng, input_count(circuit)), shapes.fair(rng, coin_count(circuit))
    outputs = protocol.evaluate(circuit, inputs)[0]
    circuit_file, inputs_file, dice_file = file(protocol.words_of(circuit)), file(inputs), file(column(coins))
    start = time.monotonic()
    status, lines, _ = run("house", circuit_file, inputs_file, given=column(coins))
    middle = time.monotonic()
    same(status, 0, "status of house")
    answers = [[int(word) for word in text.split()] for text in lines.splitlines()]
    same(protocol.verdict(circuit, inputs, outputs, answers, coins), "believed", "the reference's verdict on house")
    begin = time.monotonic()
    prints("judge", [circuit_file, inputs_file, file(outputs), dice_file], lines, column(coins) + "believed\n", 0)
    end = time.monotonic()
    wrong = outputs[:-1] + [(outputs[-1] + 1) % P]
    first = column(coins[: protocol.first_coins(circuit)])
    place = "variable 0" if protocol.variables(circuit, 0) else "values"
    wanted = f"{first}not believed, layer 0, {place}\n"
    prints("judge", [circuit_file, inputs_file, file(wrong), dice_file], lines, wanted, 1)
    return f"house {middle - start:.2f} seconds, judge {end - begin:.2f} seconds"


def long_lines():
    """A line of a megabyte where an answer is due is not believed, and one where a coin is due is refused."""
    example = shapes.example("one gate", "large")
    with Process("judge", *example.judge_files) as judge:
        judge.send("1 " * 500000)
        judge.says("not believed, layer 0, variable 0")
        judge.close()
        judge.ends(1)
    prints("house", example.house_files, "1 " * 500000 + "\n", example.lines()[0] + "\nno 5\n", 1)
    prints("house", example.house_files, "1" * 1000000 + "\n", example.lines()[0] + "\nno 3\n", 1)


def cases():
    for name in LARGE:
        yield f"run is soon done: {name}", lambda name=name: run_is_soon(name)
        yield f"house and judge on a large circuit: {name}", lambda name=name: house_and_judge(name)
    yield "run refuses large files soon", refusal_is_soon
    yield "long lines", long_lines
