"""Random circuits of many shapes, with inputs and coins. SEED in the environment gives others."""
import functools
import os
import random

from protocol import P, Circuit, Gate, Layer, coin_count, input_count, size_below
from harness import Example

SEED = os.environ.get("SEED", "1")

# name: copies, inputs, the layers' sizes with the outputs' first, gates (sums, products, mixed, or both places the same)
SHAPES = {
    "one gate": (0, 1, [0], "products"),
    "one gate of one input": (0, 0, [0], "mixed"),
    "inputs of size 0": (0, 0, [2, 1], "mixed"),
    "copies of one gate of one input": (3, 0, [0], "mixed"),
    "copies with inputs of size 0": (2, 0, [1, 1, 0], "mixed"),
    "no bits of copies": (0, 3, [2, 1, 3], "mixed"),
    "size 0 in between": (1, 2, [2, 0, 1], "mixed"),
    "all sums": (1, 2, [1, 2, 2], "sums"),
    "all products": (1, 2, [1, 2, 2], "products"),
    "both places the same": (1, 2, [2, 2], "same"),
    "widening to the outputs": (1, 1, [4, 3, 2], "mixed"),
    "narrowing to the outputs": (1, 4, [0, 1, 2, 3], "mixed"),
    "several copies": (4, 2, [1, 2], "mixed"),
    "many copies of a small gate": (6, 1, [0], "mixed"),
    "16 outputs": (2, 2, [2], "mixed"),
    "32 outputs": (2, 2, [3], "mixed"),
    "32 layers of one gate": (0, 0, [0] * 32, "mixed"),
    "32 layers in copies": (1, 1, [1] * 32, "mixed"),
    "wide and flat": (0, 5, [5], "mixed"),
}


def generator(*names):
    return random.Random(" ".join([SEED, *names]))


def number(rng):
    """Any number below p, and more often than by chance one at which something could go wrong."""
    return rng.choice([0, 1, 2, 3, P - 1, P - 2, 2**30, rng.randrange(2**16)]) if rng.random() < 0.2 else rng.randrange(P)


def numbers(rng, count):
    return [number(rng) for _ in range(count)]


def random_circuit(rng, copies, inputs, sizes, kind):
    circuit = Circuit(copies, inputs, [Layer(size, []) for size in sizes])
    for i, layer in enumerate(circuit.layers):
        for _ in range(2**layer.size):
            places = 2 ** size_below(circuit, i)
            left, right = rng.randrange(places), rng.randrange(places)
            product = {"sums": 0, "products": 1}.get(kind, rng.randrange(2))
            layer.gates.append(Gate(product, left, left if kind == "same" else right))
    return circuit


def fair(rng, count):
    """Numbers by chance alone: such inputs and coins hide no change."""
    return [rng.randrange(P) for _ in range(count)]


@functools.lru_cache(maxsize=None)
def example(name, more="", draw=numbers):
    """An example of the named shape; other words give others of it."""
    rng = generator(name, more)
    circuit = random_circuit(rng, *SHAPES[name])
    return Example(circuit, draw(rng, input_count(circuit)), draw(rng, coin_count(circuit)))


def random_example(k):
    """An example of a small random shape."""
    rng = generator("random", str(k))
    copies = rng.randrange(3)
    sizes = [rng.randrange(4) for _ in range(rng.randrange(1, 5))]
    circuit = random_circuit(rng, copies, rng.randrange(4), sizes, rng.choice(["sums", "products", "mixed", "mixed", "same"]))
    return Example(circuit, numbers(rng, input_count(circuit)), numbers(rng, coin_count(circuit)))
