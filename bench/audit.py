"""What the program tells of its slabs with `--audit` (bench/built.py runs it): rows whose lines are known, and runs whose lines are compared with what
MEMORY SLABS told last."""
import os
import re
import tempfile

from saving import asked, run

LINE = re.compile(rb"class (\d+) slabs (\d+) needed (\d+) tree (\d+) other (\d+)\n")
STEADY = ["--effort", "0", "--audit"]
OF_250 = b"".join(
    b"class %d slabs 1 needed 1 tree %d other %d\n" % row for row in ((8, 0, 1), (32, 3, 0), (64, 1, 0), (640, 0, 1), (1280, 0, 2))
)


def entries(key, count):
    return [f"XADD {key} {number + 1}-1 f v" for number in range(count)]


def rows_of(notes):
    """The rows of the lines, or None where the notes are other bytes."""
    rows = [tuple(map(int, row)) for row in LINE.findall(notes)]
    return rows if b"".join(b"class %d slabs %d needed %d tree %d other %d\n" % row for row in rows) == notes else None


def known_rows():
    """A stream of 250 short entries; no keys; a run that ends otherwise; beside a file that is saved; and beside generated commands."""
    with tempfile.TemporaryDirectory() as room:
        saved = run([*STEADY, "--save", "f"], asked(*entries("x", 250)), room)
        is_there = os.path.exists(f"{room}/f")
    return (
        run(STEADY, asked(*entries("x", 250)))[1:] == (OF_250, 0)
        and run(STEADY)[1:] == (b"", 0)
        and run(STEADY, b"SET a 1\nGET")[1:] == (b"redis-core: input ended inside a request\n", 3)
        and saved[1:] == (OF_250, 0)
        and is_there
        and run(["--audit", "--generate", "3"])[1:] == (b"redis-core: wrong usage\n", 1)
    )


def packed_streams():
    """Of 3,000 streams every second one goes; then a pass leaves as many slabs as are needed, and each stream that is left as it was."""
    made = [f"XADD s:{number} 7-7 f v{number}" for number in range(3000)]
    gone = [f"DEL s:{number}" for number in range(0, 3000, 2)]
    left = [f"XRANGE s:{number} - +" for number in range(1, 3000, 2)]
    output, notes, status = run(["--effort", "0", "--audit"], asked(*made, *gone, *left, "DEBUG DEFRAG 100000", *left))
    before, _, after = output.split(b":1\r\n" * 1500, 1)[1].rpartition(b":1\r\n")
    rows = rows_of(notes)
    return status == 0 and before == after and bool(rows) and all(slabs == needed for _, slabs, needed, _, _ in rows)


# A stream that grows, is copied, cut and moved, beside values of the other types.
STEPS = [
    ["SET text 1", "RPUSH list a b c", "SADD set a b", "HSET hash f v", "ZADD sorted 1 a"],
    entries("x", 1000),
    ["COPY x y"],
    [f"XDEL x {number}-1" for number in range(100, 400)],
    ["XTRIM y MAXLEN = 350"],
    ["RENAME y z", "COPY z other DB 3"],
    [f"RPUSH list {'e' * 60}{number}" for number in range(400)],
    ["DEBUG DEFRAG 100000"],
    ["XTRIM x MINID 900", "LTRIM list 10 50", "DEL z"],
    ["DEBUG DEFRAG 100000"],
    ["FLUSHALL"],
]


def slabs_told(reply):
    """Of each class its size, slabs and used blocks, by the last reply."""
    numbers = [int(number) for number in re.findall(rb":(\d+)\r\n", reply)]
    return {numbers[at]: (numbers[at + 1], numbers[at + 2]) for at in range(0, len(numbers), 3) if numbers[at + 1]}


def steps_between():
    """Behind each step the lines have the slabs and the used blocks that MEMORY SLABS tells, and as few slabs as needed behind a pass."""
    done = []
    for step in STEPS:
        done += step
        before = run(["--effort", "0"], asked(*done))[0]
        output, notes, status = run(STEADY, asked(*done, "MEMORY SLABS"))
        rows = rows_of(notes)
        if status or rows is None or {size: (slabs, tree + other) for size, slabs, _, tree, other in rows} != slabs_told(output[len(before) :]):
            return False
        if step[0].startswith("DEBUG") and not all(slabs == needed for _, slabs, needed, _, _ in rows):
            return False
    return not rows


CASES = [known_rows, packed_streams, steps_between]
