"""Running the programs: from files to what they print, or line by line, never for longer than a limit."""
import os
import select
import subprocess
import tempfile
import time

import protocol

HERE = os.path.dirname(os.path.abspath(__file__))
PROGRAMS = os.path.abspath(os.environ.get("PROGRAMS", os.path.join(HERE, "..", "target", "bin")))
REFERENCE = os.path.join(HERE, "reference")
LIMIT = 30  # seconds that a process may take
SLOW = PROGRAMS == REFERENCE or "FEW" in os.environ  # then less is tried
PAUSE = 0.03  # seconds in which nothing may come

folder = tempfile.TemporaryDirectory(prefix="ciderdune-tests-")


class Failed(Exception):
    """Why a case failed."""


def require(condition, why):
    if not condition:
        raise Failed(why)


def same(found, wanted, what):
    require(found == wanted, f"{what}: {brief(found)} where {brief(wanted)} was due")


def brief(value):
    text = repr(value)
    return text if len(text) <= 200 else text[:120] + " ... " + text[-70:]


def program(name):
    return os.path.join(PROGRAMS, name)


# ---- files
def line(numbers):
    return " ".join(str(n) for n in numbers)


def column(numbers):
    return "".join(f"{n}\n" for n in numbers)


def new_path():
    return tempfile.mktemp(dir=folder.name)


def file(content):
    """The path of a new file: of bytes, of a text, or of numbers."""
    if not isinstance(content, (bytes, str)):
        content = line(content) + "\n"
    path = new_path()
    with open(path, "wb") as new:
        new.write(content if isinstance(content, bytes) else content.encode())
    return path


def fifo():
    path = new_path()
    os.mkfifo(path)
    return path


# ---- whole runs
def run(name, *arguments, given=""):
    """The status, standard output and standard error of a program that is given this on its standard input."""
    given = given if isinstance(given, bytes) else given.encode()
    try:
        done = subprocess.run([program(name), *arguments], input=given, capture_output=True, timeout=LIMIT)
    except subprocess.TimeoutExpired:
        raise Failed(f"{name} did not end within {LIMIT} seconds")
    return done.returncode, done.stdout.decode(errors="replace"), done.stderr.decode(errors="replace")


def prints(name, arguments, given, wanted, status):
    """Holds what a program prints, and its status, to what they should be."""
    found, out, err = run(name, *arguments, given=given)
    same(out, wanted, f"{name} printed")
    same(found, status, f"status of {name} ({err.strip()[:80]})")


# ---- line by line
class Process:
    """A program that is given lines and whose lines are waited for."""

    def __init__(self, name, *arguments):
        self.name, self.buffer = name, b""
        self.process = subprocess.Popen([program(name), *arguments], stdin=subprocess.PIPE, stdout=subprocess.PIPE)

    def __enter__(self):
        return self

    def __exit__(self, *_):
        if self.process.poll() is None:
            self.process.kill()
        for stream in (self.process.stdin, self.process.stdout):
            try:
                stream.close()
            except BrokenPipeError:
                pass
        self.process.wait()

    def send(self, text):
        self.process.stdin.write((text + "\n").encode())
        self.process.stdin.flush()

    def close(self):
        self.process.stdin.close()

    def line(self):
        """The next line, or None at the end."""
        end = time.monotonic() + LIMIT
        while b"\n" not in self.buffer:
            left = end - time.monotonic()
            require(left > 0 and select.select([self.process.stdout], [], [], left)[0], f"{self.name} prints no line")
            more = os.read(self.process.stdout.fileno(), 65536)
            if not more:
                return None
            self.buffer += more
        found, self.buffer = self.buffer.split(b"\n", 1)
        return found.decode()

    def says(self, wanted):
        same(self.line(), wanted, f"line of {self.name}")

    def silent(self):
        """Holds that for a while nothing comes, and that the process goes on."""
        found = self.buffer or select.select([self.process.stdout], [], [], PAUSE)[0]
        require(not found, f"{self.name} prints before its time, or ends")
        require(self.process.poll() is None, f"{self.name} ends before its time")

    def ends(self, status):
        same(self.line(), None, f"line of {self.name} at its end")
        try:
            same(self.process.wait(LIMIT), status, f"status of {self.name}")
        except subprocess.TimeoutExpired:
            raise Failed(f"{self.name} does not end")


# ---- one circuit with all that belongs to it
class Example:
    """A circuit, inputs, coins, and what the reference makes of them."""

    def __init__(self, circuit, inputs, coins):
        self.circuit, self.inputs, self.coins = circuit, inputs, coins
        self.outputs = protocol.evaluate(circuit, inputs)[0]
        self.answers = protocol.honest_answers(circuit, inputs, coins)
        self.first = protocol.first_coins(circuit)
        self.circuit_file, self.inputs_file = file(protocol.words_of(circuit)), file(inputs)
        self.outputs_file, self.dice_file = file(self.outputs), file(column(coins))
        self.house_files = [self.circuit_file, self.inputs_file]
        self.judge_files = [self.circuit_file, self.inputs_file, self.outputs_file, self.dice_file]

    def lines(self):
        return [line(answer) for answer in self.answers]

    def place(self, k):
        """Where answer k stands, as the verifier names it."""
        for i in range(len(self.circuit.layers)):
            variables = protocol.variables(self.circuit, i)
            if k <= variables:
                return f"layer {i}, " + (f"variable {k}" if k < variables else "values")
            k -= variables + 1
        return f"layer {len(self.circuit.layers)}, inputs"

    def said(self, k):
        """The coins that the verifier has printed when it hears answer k."""
        return column(self.coins[: self.first + k])
