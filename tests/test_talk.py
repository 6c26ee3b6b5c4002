"""House and judge talking: through FIFOs, and line by line, so that what is said before what can be seen."""
import array
import fcntl
import os
import subprocess
import termios

import protocol
import shapes
from harness import LIMIT, Failed, Process, column, fifo, file, new_path, program, require, same

TALKS = ["one gate", "inputs of size 0", "copies with inputs of size 0", "no bits of copies", "several copies",
         "both places the same", "many copies of a small gate", "32 layers of one gate", "32 layers in copies"]


# ---- two programs and two FIFOs, as one would run them by hand
SCRIPT = """
"$1" "$3" "$4" <"$7" >"$8" & house=$!
"$2" "$3" "$4" "$5" "$6" <"$8" | tee -p "$7" >"$9"
judge=${PIPESTATUS[0]}
wait $house
echo "$judge $?"
"""


def talk(files):
    """The lines that the judge prints, and the status of judge and of house."""
    told = new_path()
    words = [program("house"), program("judge"), *files, fifo(), fifo(), told]
    try:
        done = subprocess.run(["bash", "-c", SCRIPT, "talk", *words], capture_output=True, timeout=LIMIT)
    except subprocess.TimeoutExpired:
        raise Failed(f"no end within {LIMIT} seconds")
    with open(told) as lines:
        return lines.read(), done.stdout.decode().strip()


def through_fifos(name):
    example = shapes.example(name, "talk")
    same(talk(example.judge_files), (column(example.coins) + "believed\n", "0 0"), "talk")


def wrong_output_through_fifos(name):
    example = shapes.example(name, "wrong talk", shapes.fair)
    wrong = example.outputs[:-1] + [(example.outputs[-1] + 1) % protocol.P]
    files = [*example.house_files, file(wrong), example.dice_file]
    same(talk(files), (example.said(0) + f"not believed, {example.place(0)}\n", "1 1"), "talk")


# ---- the coins, one by one
def coins_one_by_one(name):
    """Each coin goes into DICE only after the answer before it has been sent; judge then prints it, and not before."""
    example, dice = shapes.example(name, "coins"), fifo()
    with Process("judge", *example.judge_files[:3], dice) as judge, open(dice, "wb", buffering=0) as feeder:
        answers = iter(example.lines())
        for k, coin in enumerate(example.coins):
            if k >= example.first:
                judge.send(next(answers))
            if k % 5 == 0:
                judge.silent()
            feeder.write(f"{coin}\n".encode())
            judge.says(str(coin))
        feeder.close()
        judge.says("believed")
        judge.close()
        judge.ends(0)


def no_coin_for_a_wrong_answer(name):
    """An answer is looked at before a coin is read for it: judge stops believing while DICE has no coin to give."""
    example, dice = shapes.example(name, "wrong"), fifo()
    for k, answer in enumerate(example.lines()):
        with Process("judge", *example.judge_files[:3], dice) as judge, open(dice, "wb", buffering=0) as feeder:
            feeder.write(column(example.coins[: example.first + k]).encode())
            for line in example.lines()[:k] + ["1" + answer]:
                judge.send(line)
            for coin in example.coins[: example.first + k]:
                judge.says(str(coin))
            judge.says(f"not believed, {example.place(k)}")
            judge.close()
            judge.ends(1)


def unread(pipe):
    """How many bytes wait in a pipe."""
    count = array.array("i", [0])
    fcntl.ioctl(pipe, termios.FIONREAD, count)
    return count[0]


def nothing_read_ahead(name, between):
    """All coins lie in DICE from the start: judge reads none of them before the answer before it has come."""
    example, dice = shapes.example(name, "ahead"), fifo()
    texts = [f"{coin}{between}" for coin in example.coins]
    with Process("judge", *example.judge_files[:3], dice) as judge, open(dice, "wb", buffering=0) as feeder:
        feeder.write("".join(texts).encode())
        answers = iter(example.lines())
        for k, coin in enumerate(example.coins):
            if k >= example.first:
                if k % 5 == 0 or k == example.first:
                    judge.silent()
                require(unread(feeder) >= len("".join(texts[k:])), f"coin {k} has been read before its answer was sent")
                judge.send(next(answers))
            judge.says(str(coin))
        feeder.close()
        judge.says("believed")
        judge.ends(0)


def file_not_read_ahead(name):
    """The same where DICE is an ordinary file: how far it has been read is seen in /proc."""
    example = shapes.example(name, "file")
    texts = [f"{coin}\n" for coin in example.coins]
    with Process("judge", *example.judge_files) as judge:
        answers = iter(example.lines())
        for k, coin in enumerate(example.coins):
            if k >= example.first:
                judge.silent()
                require(read_so_far(judge, example.dice_file) <= len("".join(texts[:k])), f"coin {k} has been read early")
                judge.send(next(answers))
            judge.says(str(coin))
        judge.says("believed")
        judge.ends(0)


def read_so_far(process, path):
    base = f"/proc/{process.process.pid}"
    for number in os.listdir(f"{base}/fd"):
        try:
            if os.path.realpath(f"{base}/fd/{number}") == os.path.realpath(path):
                with open(f"{base}/fdinfo/{number}") as info:
                    return int(info.readline().split()[1])
        except OSError:
            pass
    return 0


def house_line_by_line(name):
    """House answers as soon as it has the coin, and nothing before."""
    example = shapes.example(name, "house")
    with Process("house", *example.house_files) as house:
        answers = iter(example.lines())
        for k, coin in enumerate(example.coins):
            if k >= example.first:
                house.says(next(answers))
            if k % 5 == 0:
                house.silent()
            house.send(str(coin))
        house.ends(0)


# ---- after the verdict
def reads_on(name):
    """Judge says at once that it stops believing, reads on to the end of the house's lines, and says no more."""
    example = shapes.example(name, "reads on")
    with Process("judge", *example.judge_files) as judge:
        for coin in example.coins[: example.first]:
            judge.says(str(coin))
        judge.send("0 0 0")
        judge.says("not believed, " + example.place(0))
        judge.silent()
        for text in example.lines():
            judge.send(text)
        judge.send("1 " * 100000)
        judge.silent()
        judge.close()
        judge.ends(1)


def cases():
    for name in TALKS:
        yield f"house and judge through FIFOs: {name}", lambda name=name: through_fifos(name)
        yield f"house and judge through FIFOs, a wrong output: {name}", lambda name=name: wrong_output_through_fifos(name)
    for name in ["one gate", "several copies", "inputs of size 0", "size 0 in between"]:
        yield f"coins fed one by one: {name}", lambda name=name: coins_one_by_one(name)
        yield f"house line by line: {name}", lambda name=name: house_line_by_line(name)
        for between, word in [("\n", "a line each"), (" ", "in one line")]:
            yield (f"no coin read ahead from a FIFO, {word}: {name}",
                   lambda name=name, between=between: nothing_read_ahead(name, between))
    for name in ["one gate", "several copies"]:
        yield f"no coin read for a wrong answer: {name}", lambda name=name: no_coin_for_a_wrong_answer(name)
    yield "no coin read ahead from a file", lambda: file_not_read_ahead("several copies")
    for name in ["one gate", "several copies", "32 layers of one gate"]:
        yield f"judge reads on after it stopped believing: {name}", lambda name=name: reads_on(name)
