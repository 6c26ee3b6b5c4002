"""Provers that cheat: one that is consistent until the inputs, and on tiny circuits the best that there can be."""
import functools
import itertools

import protocol
import shapes
from harness import Process, column, file, line, prints, require, same
from protocol import P, Claim


# ---- consistent until the inputs
def cheat(circuit, inputs, outputs, z, p=P):
    """Answers for wrong outputs: each sum is mended in one of its four values, and the first of the two values is solved
    for, so that all that is looked at before the inputs is as it has to be."""
    tables = protocol.evaluate(circuit, inputs, p)
    claim = protocol.first_claim(circuit, outputs, z, p)
    for i in range(len(circuit.layers)):
        layer, point, total = protocol.LayerSum(circuit, i, claim, tables[i + 1], p), [], claim.total
        for _ in range(protocol.variables(circuit, i)):
            values = layer.answer()
            values[0] = (total - values[1]) % p
            point.append((yield values))
            layer.fix(point[-1])
            total = protocol.interpolate(values, point[-1], p)
        _, b = layer.two_values()
        # the expression is linear in a
        at_0, at_1 = (protocol.expected(circuit, i, claim, point, a, b, p) for a in (0, 1))
        a = (total - at_0) * pow(at_1 - at_0, -1, p) % p
        claim = protocol.claim_below(*protocol.split(circuit, i, point), a, b, (yield [a, b]), p)


def is_caught_at_the_inputs(name):
    example = shapes.example(name, "cheat", shapes.fair)
    circuit, first = example.circuit, example.first
    wrong = [(example.outputs[0] + 1) % P] + example.outputs[1:]
    answers = protocol.answers_along(cheat(circuit, example.inputs, wrong, example.coins[:first]), example.coins[first:])
    require(answers != example.answers, "the cheat answers as an honest prover")
    verdict = f"not believed, layer {len(circuit.layers)}, inputs"
    same(protocol.verdict(circuit, example.inputs, wrong, answers, example.coins), verdict, "verdict of the reference")
    files = [*example.house_files, file(wrong), example.dice_file]
    given = "".join(line(answer) + "\n" for answer in answers)
    prints("judge", files, given, column(example.coins) + verdict + "\n", 1)


def house_with_another_input(name):
    """A house that works with one input changed by one is right about all but the inputs."""
    example = shapes.example(name, "cheat", shapes.fair)
    inputs = [(example.inputs[0] + 1) % P] + example.inputs[1:]
    outputs = protocol.evaluate(example.circuit, inputs)[0]
    with Process("house", example.circuit_file, file(inputs)) as house:
        files = [*example.house_files, file(outputs), example.dice_file]
        with Process("judge", *files) as judge:
            for k, coin in enumerate(example.coins):
                if k >= example.first:
                    judge.send(house.line())
                judge.says(str(coin))
                house.send(str(coin))
            judge.says(f"not believed, layer {len(example.circuit.layers)}, inputs")
            judge.close()
            judge.ends(1)
        house.ends(0)


# ---- all strategies at once, for a small modulus
class Best:
    """On how many rows of coins a prover can be believed that answers as well as can be, by going through all answers."""

    def __init__(self, circuit, inputs, p):
        self.circuit, self.inputs, self.p = circuit, inputs, p
        self.cubics = {}
        for values in itertools.product(range(p), repeat=4):
            totals = tuple(protocol.interpolate(values, r, p) for r in range(p))
            self.cubics.setdefault((values[0] + values[1]) % p, []).append(totals)

    def rows(self, outputs):
        """The rows on which these outputs are believed, over all first coins."""
        first = protocol.first_coins(self.circuit)
        points = itertools.product(range(self.p), repeat=first)
        return sum(self.layer(0, hashable(protocol.first_claim(self.circuit, outputs, list(z), self.p))) for z in points)

    @functools.lru_cache(maxsize=None)
    def layer(self, i, claim):
        claim = Claim(list(claim[0]), [(factor, list(point)) for factor, point in claim[1]], claim[2])
        if i == len(self.circuit.layers):
            return int(protocol.share_sum(self.inputs, claim, self.p) == claim.total)
        memory = {}

        def from_here(point, total):
            if (point, total) not in memory:
                memory[point, total] = self.best(i, claim, point, total, from_here)
            return memory[point, total]

        return from_here((), claim.total)

    def best(self, i, claim, point, total, from_here):
        coins = range(self.p)
        if len(point) < protocol.variables(self.circuit, i):
            table = [[from_here(point + (r,), new) for new in coins] for r in coins]
            return max(sum(table[r][cubic[r]] for r in coins) for cubic in self.cubics[total])
        pairs = itertools.product(coins, repeat=2)
        fitting = [pair for pair in pairs if protocol.expected(self.circuit, i, claim, list(point), *pair, self.p) == total]
        parts = protocol.split(self.circuit, i, list(point))
        below = lambda pair, s: hashable(protocol.claim_below(*parts, *pair, s, self.p))
        return max((sum(self.layer(i + 1, below(pair, s)) for s in coins) for pair in fitting), default=0)


def hashable(claim):
    return tuple(claim.copy), tuple((factor, tuple(point)) for factor, point in claim.shares), claim.total


# name: words, inputs, modulus
TINY = {
    "one gate of one input": ([0, 0, 1, 0, 1, 0, 0], [3], 5),
    "one sum of one input": ([0, 0, 1, 0, 0, 0, 0], [3], 7),
    "three layers of one gate": ([0, 0, 3, 0, 1, 0, 0, 0, 0, 0, 0, 0, 1, 0, 0], [2], 5),
    "two copies of one gate": ([1, 0, 1, 0, 1, 0, 0], [2, 3], 7),
    "product of two inputs": ([0, 1, 1, 0, 1, 0, 1], [3, 5], 11),
    "two outputs of one input": ([0, 0, 1, 1, 1, 0, 0, 0, 0, 0], [3], 5),
}


def honest_on_all_rows(name):
    words, inputs, p = TINY[name]
    circuit = protocol.circuit_of(words)
    outputs, count = protocol.evaluate(circuit, inputs, p)[0], 0
    for coins in itertools.product(range(p), repeat=protocol.coin_count(circuit)):
        answers = protocol.honest_answers(circuit, inputs, list(coins), p)
        same(protocol.verdict(circuit, inputs, outputs, answers, list(coins), p), "believed", f"coins {coins}")
        count += 1
    return f"believed on {count} of {count} rows"


def cheat_on_all_rows(name):
    """The prover that is consistent until the inputs; where it cannot solve for the value it gives up."""
    words, inputs, p = TINY[name]
    circuit = protocol.circuit_of(words)
    right = protocol.evaluate(circuit, inputs, p)[0]
    wrong, first, rows, believed = [(right[0] + 1) % p] + right[1:], protocol.first_coins(circuit), 0, 0
    for coins in map(list, itertools.product(range(p), repeat=protocol.coin_count(circuit))):
        rows += 1
        try:
            answers = protocol.answers_along(cheat(circuit, inputs, wrong, coins[:first], p), coins[first:])
        except ValueError:  # nothing to divide by
            continue
        believed += protocol.verdict(circuit, inputs, wrong, answers, coins, p) == "believed"
    bound = protocol.chance_count(circuit)
    require(believed * p <= bound * rows, f"believed on {believed} of {rows} rows, more than {bound} / {p}")
    return f"believed on {believed} of {rows} rows, {believed / rows:.4f}; bound {bound} / {p}, {bound / p:.4f}"


def best_on_all_rows(name):
    words, inputs, p = TINY[name]
    circuit = protocol.circuit_of(words)
    best, rows = Best(circuit, inputs, p), p ** protocol.coin_count(circuit)
    right = protocol.evaluate(circuit, inputs, p)[0]
    same(best.rows(right), rows, "rows on which the right outputs can be believed")
    wrong = max(best.rows([(right[0] + d) % p] + right[1:]) for d in range(1, p))
    bound = protocol.chance_count(circuit)
    require(wrong * p <= bound * rows, f"believed on {wrong} of {rows} rows, more than {bound} / {p}")
    return f"at best believed on {wrong} of {rows} rows, {wrong / rows:.4f}; bound {bound} / {p}, {bound / p:.4f}"


def cases():
    for name in ["one gate", "no bits of copies", "size 0 in between", "all products", "several copies",
                 "inputs of size 0", "32 layers of one gate"]:
        yield f"judge catches a cheat at the inputs: {name}", lambda name=name: is_caught_at_the_inputs(name)
        yield f"judge catches a house with another input: {name}", lambda name=name: house_with_another_input(name)
    for name in TINY:
        yield f"reference, honest on all rows: {name}", lambda name=name: honest_on_all_rows(name)
        yield f"reference, a cheat on all rows: {name}", lambda name=name: cheat_on_all_rows(name)
        yield f"reference, the best cheat of all: {name}", lambda name=name: best_on_all_rows(name)
