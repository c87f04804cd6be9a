#!/usr/bin/env python3
"""Compares the files that the built program boardwrite writes with those of tools/reference_formulas.py, byte for byte.

    tools/build.sh boardwrite && tools/compare_formulas.py [SEED]

The boards: one of each gate at every depth, the edges of the number of wires, and boards drawn at random from the seed (1
where none is given). It is outside the gate.
"""
import pathlib
import random
import subprocess
import sys
import tempfile

sys.path.insert(0, str(pathlib.Path(__file__).parent))
import reference_formulas as reference

PROGRAM = pathlib.Path(__file__).resolve().parent.parent / "crates" / "boardwrite" / "out" / "boardwrite"


def gate_file(gates, p, d):
    return bytes(byte for gate in gates for byte in gate) + bytes([15, p, d])


def random_gate(draw, n, kinds):
    kind = draw.choice(kinds)
    return (kind, *(draw.randrange(n) for _ in range(reference.NAMED[kind])))


def random_board(draw, n, d, kinds=range(10)):
    return gate_file([random_gate(draw, n, kinds) for _ in range(n)], draw.randrange(n), d)


def boards(draw):
    for kind in range(10):
        for d in range(1, 9):
            yield gate_file([(kind, *range(reference.NAMED[kind])), (2,)], 1, d)
    for d in (1, 2, 8):
        yield gate_file([(2,)] * 256, 255, d)
        yield gate_file([(9, w) for w in range(256)], 0, d)
        yield gate_file([(8, 255, 0)] * 256, 128, d)
    for _ in range(60):
        yield random_board(draw, draw.randint(1, 12), draw.randint(1, 8))
    for _ in range(6):
        yield random_board(draw, draw.randint(100, 256), draw.randint(1, 8))
    yield random_board(draw, 256, 8, [8, 9])


def compare(board):
    with tempfile.TemporaryDirectory() as name:
        folder = pathlib.Path(name)
        (folder / "board.bin").write_bytes(board)
        run = subprocess.run([PROGRAM], cwd=folder, capture_output=True, text=True)
        gates, p, d = parsed = reference.read_board(board)
        base, step = reference.base(parsed), reference.step(parsed)
        registers = sum(gate[0] == reference.REGISTER for gate in gates)
        lines = f"board {len(gates)} {registers}\n"
        lines += f"base {base[0]} {len(base[1])}\nstep {step[0]} {len(step[1])}\n"
        files = {"board.bin": board, "base.cnf": reference.text(base).encode(), "step.cnf": reference.text(step).encode()}
        written = {path.name: path.read_bytes() for path in folder.iterdir()}
        return (run.returncode, run.stdout, run.stderr, written) == (0, lines, "", files)


def main():
    draw = random.Random(int(sys.argv[1]) if len(sys.argv) > 1 else 1)
    wrong = total = 0
    for board in boards(draw):
        total += 1
        if not compare(board):
            wrong += 1
            print("different:", board.hex())
    print(f"{total} boards, {wrong} different")
    sys.exit(1 if wrong else 0)


if __name__ == "__main__":
    main()
