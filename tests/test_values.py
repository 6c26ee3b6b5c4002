"""What the programs work out, for circuits of many shapes: held to the reference, number for number."""
import protocol
import shapes
from harness import SLOW, Example, column, file, line, prints, same
from protocol import P


# ---- the worked example, and the reference itself
def worked_example():
    circuit = protocol.circuit_of([0, 1, 1, 0, 1, 0, 1])
    inputs, coins = [3, 5], [2, 4, 3]
    same(protocol.evaluate(circuit, inputs, 31)[0], [15], "output")
    same(protocol.coin_count(circuit), 3, "coins")
    same(protocol.chance_count(circuit), 7, "chances")
    answers = protocol.honest_answers(circuit, inputs, coins, 31)
    same(answers, [[15, 0, 27, 3], [0, 27, 26, 28], [7, 11]], "answers")
    same(protocol.verdict(circuit, inputs, [15], answers, coins, 31), "believed", "verdict on 15")
    same(protocol.verdict(circuit, inputs, [16], answers, coins, 31), "not believed, layer 0, variable 0", "verdict on 16")


def polynomials():
    same(protocol.interpolate([1, 4, 9, 16], 4, 31), 25, "squares at 4")
    same(protocol.interpolate([1, 4, 9, 16], 30, 31), 0, "squares at 30")
    same(protocol.extension([1, 2, 3, 4], [5, 7], 31), 18, "1 + 2 a + b at (5, 7)")


def worked_example_of_programs():
    example = Example(protocol.circuit_of([0, 1, 1, 0, 1, 0, 1]), [3, 5], [2, 4, 3])
    lines = f"15 0 {P - 35} {P - 90}\n0 {P - 35} {P - 98} {P - 189}\n7 11\n"
    prints("run", example.house_files, "", "15\n", 0)
    prints("house", example.house_files, "2\n4\n3\n", lines, 0)
    prints("judge", example.judge_files, lines, "2\n4\n3\nbelieved\n", 0)
    wrong = [*example.house_files, file([16]), example.dice_file]
    prints("judge", wrong, lines, "not believed, layer 0, variable 0\n", 1)


# ---- for each shape
def run_agrees(example):
    rows = [example.outputs[i : i + 16] for i in range(0, len(example.outputs), 16)]
    prints("run", example.house_files, "", "".join(line(row) + "\n" for row in rows), 0)


def house_agrees(example):
    lines = "".join(text + "\n" for text in example.lines())
    prints("house", example.house_files, column(example.coins), lines, 0)


def judged(example, answers, inputs=None, outputs=None, coins=None):
    """Holds what the judge prints, for numbers of which some are changed, to the reference."""
    inputs, outputs, coins = inputs or example.inputs, outputs or example.outputs, coins or example.coins
    drawn, verdict = protocol.judged(example.circuit, inputs, outputs, answers, coins)
    files = [example.circuit_file, file(inputs), file(outputs), file(column(coins))]
    given = "".join(line(answer) + "\n" for answer in answers)
    prints("judge", files, given, column(drawn) + verdict + "\n", 0 if verdict == "believed" else 1)
    return verdict


def judge_believes(example):
    given = "".join(text + "\n" for text in example.lines())
    prints("judge", example.judge_files, given, column(example.coins) + "believed\n", 0)


def changed(numbers, i, rng):
    change = rng.choice([1, P - 1, rng.randrange(1, P)])
    return numbers[:i] + [(numbers[i] + change) % P] + numbers[i + 1 :]


def changes_are_found(example, name, most=10 if SLOW else 150):
    rng, places = shapes.generator("changes", name), set()
    spots = [(k, j) for k, answer in enumerate(example.answers) for j in range(len(answer))]
    for k, j in rng.sample(spots, min(most, len(spots))):
        answers = example.answers[:k] + [changed(example.answers[k], j, rng)] + example.answers[k + 1 :]
        places.add(judged(example, answers))
    return f"{min(most, len(spots))} changes, {len(places)} verdicts"


def files_changed(example, name, most=3 if SLOW else 12):
    rng = shapes.generator("files", name)
    for i in rng.sample(range(len(example.outputs)), min(most, len(example.outputs))):
        judged(example, example.answers, outputs=changed(example.outputs, i, rng))
    for i in rng.sample(range(len(example.inputs)), min(most, len(example.inputs))):
        judged(example, example.answers, inputs=changed(example.inputs, i, rng))
    for i in rng.sample(range(len(example.coins)), min(most, len(example.coins))):
        judged(example, example.answers, coins=changed(example.coins, i, rng))


def shape_cases(name, example):
    yield f"run works out: {name}", lambda: run_agrees(example())
    yield f"house answers: {name}", lambda: house_agrees(example())
    yield f"judge believes: {name}", lambda: judge_believes(example())
    yield f"judge on one number changed in the answers: {name}", lambda: changes_are_found(example(), name)
    yield f"judge on one number changed in a file: {name}", lambda: files_changed(example(), name)


def random_shape(k):
    example = shapes.random_example(k)
    run_agrees(example)
    house_agrees(example)
    judge_believes(example)
    changes_are_found(example, f"random {k}", 4)
    files_changed(example, f"random {k}", 1)


def cases():
    yield "reference: the worked example", worked_example
    yield "reference: polynomials", polynomials
    yield "worked example of the programs", worked_example_of_programs
    for name in shapes.SHAPES:
        yield from shape_cases(name, lambda name=name: shapes.example(name))
    for k in range(8 if SLOW else 100):
        yield f"all programs on random circuit {k}", lambda k=k: random_shape(k)
