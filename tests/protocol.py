"""The protocol, written out plainly: both ends of it, for any prime modulus p above 3.

It is written from the protocol's rules and takes no code from the programs that it is there to test. Nothing here is
quick: the prover keeps whole tables over all corners (c, x, y).
"""
from collections import namedtuple

P = 2**31 - 1

Gate = namedtuple("Gate", "product left right")
Layer = namedtuple("Layer", "size gates")
Circuit = namedtuple("Circuit", "copies inputs layers")
Claim = namedtuple("Claim", "copy shares total")  # shares: pairs of a factor and a point


# ---- circuits
def words_of(circuit):
    words = [circuit.copies, circuit.inputs, len(circuit.layers)]
    for layer in circuit.layers:
        words.append(layer.size)
        for gate in layer.gates:
            words += [int(gate.product), gate.left, gate.right]
    return words


def circuit_of(words):
    """The circuit that the words are, or None where they are none."""
    if not 3 <= len(words) <= 2**19:
        return None
    copies, inputs, count = words[:3]
    if copies + inputs > 16 or not 1 <= count <= 32:
        return None
    layers, at = [], 3
    for _ in range(count):
        if at >= len(words) or copies + words[at] > 16:
            return None
        size, end = words[at], at + 1 + 3 * 2 ** words[at]
        if end > len(words):
            return None
        gates = [Gate(*words[i : i + 3]) for i in range(at + 1, end, 3)]
        layers.append(Layer(size, gates))
        at = end
    circuit = Circuit(copies, inputs, layers)
    if at < len(words):
        return None
    for i, layer in enumerate(layers):
        places = 2 ** size_below(circuit, i)
        if any(g.product > 1 or g.left >= places or g.right >= places for g in layer.gates):
            return None
    return circuit


def size_below(circuit, i):
    return circuit.layers[i + 1].size if i + 1 < len(circuit.layers) else circuit.inputs


def variables(circuit, i):
    return circuit.copies + 2 * size_below(circuit, i)


def input_count(circuit):
    return 2 ** (circuit.copies + circuit.inputs)


def output_count(circuit):
    return 2 ** (circuit.copies + circuit.layers[0].size)


def first_coins(circuit):
    return circuit.copies + circuit.layers[0].size


def coin_count(circuit):
    return first_coins(circuit) + sum(variables(circuit, i) + 1 for i in range(len(circuit.layers)))


def chance_count(circuit):
    return first_coins(circuit) + sum(3 * variables(circuit, i) + 1 for i in range(len(circuit.layers)))


def evaluate(circuit, inputs, p=P):
    """The values of each layer in all copies, the outputs first, the inputs last."""
    tables = [list(inputs)]
    for i in reversed(range(len(circuit.layers))):
        below, width, table = tables[0], 2 ** size_below(circuit, i), []
        for copy in range(2**circuit.copies):
            for gate in circuit.layers[i].gates:
                left, right = below[copy * width + gate.left], below[copy * width + gate.right]
                table.append((left * right if gate.product else left + right) % p)
        tables.insert(0, table)
    return tables


# ---- polynomials
def extension(table, point, p=P):
    """The value of the table's multilinear extension; the first variable is the highest bit of a place."""
    for r in point:
        half = len(table) // 2
        table = [((1 - r) * low + r * high) % p for low, high in zip(table[:half], table[half:])]
    return table[0] % p


def eq_table(point, p=P):
    """For each corner the polynomial that is 1 there and 0 at the other corners, at the point."""
    table = [1]
    for r in point:
        table = [entry * factor % p for entry in table for factor in (1 - r, r)]
    return table


def interpolate(values, r, p=P):
    """The value at r of the polynomial of degree 3 at most with these values at 0, 1, 2, 3."""
    total = 0
    for i, value in enumerate(values):
        above, under = value, 1
        for j in range(len(values)):
            if j != i:
                above, under = above * (r - j), under * (i - j)
        total += above * pow(under, -1, p)
    return total % p


# ---- claims
def first_claim(circuit, outputs, z, p=P):
    return Claim(z[: circuit.copies], [(1, z[circuit.copies :])], extension(outputs, z, p))


def claim_below(c, x, y, a, b, s, p=P):
    return Claim(c, [(1, x), (s, y)], (a + s * b) % p)


def share_sum(table, claim, p=P):
    return sum(factor * extension(table, claim.copy + point, p) for factor, point in claim.shares) % p


def gate_weights(claim, p=P):
    tables = [(factor, eq_table(point, p)) for factor, point in claim.shares]
    return [sum(factor * table[i] for factor, table in tables) % p for i in range(len(tables[0][1]))]


def split(circuit, i, point):
    copies, below = circuit.copies, size_below(circuit, i)
    return point[:copies], point[copies : copies + below], point[copies + below :]


def expected(circuit, i, claim, point, a, b, p=P):
    """E(c) (A(x, y) (a + b) + M(x, y) a b) for layer i at the point (c, x, y)."""
    c, x, y = split(circuit, i, point)
    at_x, at_y = eq_table(x, p), eq_table(y, p)
    sums = products = 0
    for weight, gate in zip(gate_weights(claim, p), circuit.layers[i].gates):
        wire = weight * at_x[gate.left] % p * at_y[gate.right]
        if gate.product:
            products += wire
        else:
            sums += wire
    same_copy = 1
    for r, s in zip(claim.copy, c):
        same_copy = same_copy * (r * s + (1 - r) * (1 - s)) % p
    return same_copy * (sums * (a + b) + products * a * b) % p


# ---- the verifier
def stopped(layer, place):
    return f"not believed, layer {layer}, {place}"


def verify(circuit, inputs, outputs, draw, hear, p=P):
    """What the verifier says in the end. draw() gives a coin; hear() gives an answer's numbers, or None for anything else."""

    def answer(count):
        numbers = hear()
        fits = numbers is not None and len(numbers) == count and all(n < p for n in numbers)
        return numbers if fits else None

    claim = first_claim(circuit, outputs, [draw() for _ in range(first_coins(circuit))], p)
    for i in range(len(circuit.layers)):
        total, point = claim.total, []
        for variable in range(variables(circuit, i)):
            values = answer(4)
            if values is None or (values[0] + values[1]) % p != total:
                return stopped(i, f"variable {variable}")
            point.append(draw())
            total = interpolate(values, point[-1], p)
        pair = answer(2)
        if pair is None or expected(circuit, i, claim, point, *pair, p) != total:
            return stopped(i, "values")
        claim = claim_below(*split(circuit, i, point), *pair, draw(), p)
    if share_sum(inputs, claim, p) != claim.total:
        return stopped(len(circuit.layers), "inputs")
    return "believed"


# ---- the honest prover
class LayerSum:
    """The sum of a layer's claim over the corners (c, x, y) that are left, as five tables over them."""

    def __init__(self, circuit, i, claim, below, p=P):
        self.p = p
        width, same_copy = 2 ** size_below(circuit, i), eq_table(claim.copy, p)
        wires = ([[0] * width for _ in range(width)], [[0] * width for _ in range(width)])
        for weight, gate in zip(gate_weights(claim, p), circuit.layers[i].gates):
            wires[int(gate.product)][gate.left][gate.right] += weight
        self.rows = [
            (same_copy[c], wires[0][x][y], wires[1][x][y], below[c * width + x], below[c * width + y])
            for c in range(2**circuit.copies) for x in range(width) for y in range(width)
        ]

    def at(self, r):
        """The rows that are left when the first variable is r."""
        half = len(self.rows) // 2
        pairs = zip(self.rows[:half], self.rows[half:])
        return [tuple((u + r * (v - u)) % self.p for u, v in zip(low, high)) for low, high in pairs]

    def answer(self):
        return [sum(e * (a * (u + v) + m * u * v) for e, a, m, u, v in self.at(t)) % self.p for t in range(4)]

    def fix(self, r):
        self.rows = self.at(r)

    def two_values(self):
        return list(self.rows[0][3:])


def prove(circuit, inputs, z, p=P):
    """A generator of answers, for the first coins z; it is sent the coin after each answer."""
    tables = evaluate(circuit, inputs, p)
    claim = first_claim(circuit, tables[0], z, p)
    for i in range(len(circuit.layers)):
        layer, point = LayerSum(circuit, i, claim, tables[i + 1], p), []
        for _ in range(variables(circuit, i)):
            point.append((yield layer.answer()))
            layer.fix(point[-1])
        a, b = layer.two_values()
        claim = claim_below(*split(circuit, i, point), a, b, (yield [a, b]), p)


# ---- transcripts
def answers_along(prover, later):
    """What a prover answers along the coins after the first ones: one answer before each of them."""
    return [next(prover)] + [prover.send(coin) for coin in later[:-1]]


def honest_answers(circuit, inputs, coins, p=P):
    first = first_coins(circuit)
    return answers_along(prove(circuit, inputs, coins[:first], p), coins[first:])


def judged(circuit, inputs, outputs, answers, coins, p=P):
    """The coins that the verifier draws and its verdict, on a transcript; where the answers end, nothing more is heard."""
    left, answers = list(coins), iter(answers)
    verdict = verify(circuit, inputs, outputs, lambda: left.pop(0), lambda: next(answers, None), p)
    return coins[: len(coins) - len(left)], verdict


def verdict(circuit, inputs, outputs, answers, coins, p=P):
    return judged(circuit, inputs, outputs, answers, coins, p)[1]
