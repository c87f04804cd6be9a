#!/usr/bin/env python3
"""The two formulas of a board, from docs/formulas.md, docs/values.md and docs/boards.md alone.

A second, plain writer of the same texts, to compare the proved one with: it is neither proved nor used by any program. It
takes a gate file that is good and writes base.cnf and step.cnf into a folder:

    tools/reference_formulas.py BOARD.BIN FOLDER

`tools/compare_formulas.py` runs it beside the program boardwrite.
"""
import pathlib
import sys

INPUT, ZERO, ONE, COPY, NOT, AND, OR, IMPLIES, XOR, REGISTER = range(10)
NAMED = {INPUT: 0, ZERO: 0, ONE: 0, COPY: 1, NOT: 1, AND: 2, OR: 2, IMPLIES: 2, XOR: 2, REGISTER: 1}


def read_board(data):
    """The gates as tuples (kind, named wires ..), the property wire and the depth."""
    gates, at = [], 0
    while data[at] != 15:
        size = 1 + NAMED[data[at]]
        gates.append(tuple(data[at : at + size]))
        at += size
    assert len(data) == at + 3
    return gates, data[at + 1], data[at + 2]


def always(a):
    return [[a]]


def never(a):
    return [[-a]]


def same(a, b):
    return [[-a, b], [a, -b]]


def either(a, b, c):
    return [[-a, b, c], [a, -b], [a, -c]]


def both(a, b, c):
    return [[a, -b, -c], [-a, b], [-a, c]]


def two_boths(a, b, c, e, f):
    return [[-a, b, e], [-a, b, f], [-a, c, e], [-a, c, f], [a, -b, -c], [a, -e, -f]]


class Formula:
    """What the two formulas share. Frames are counted from 1, wires from 0."""

    def __init__(self, board):
        self.gates, self.p, self.d = board
        self.n = len(self.gates)
        self.registers = [w for w, gate in enumerate(self.gates) if gate[0] == REGISTER]
        self.m = len(self.registers)

    def rail0(self, i, w):
        return 2 * self.n * (i - 1) + 2 * w + 1

    def rail1(self, i, w):
        return 2 * self.n * (i - 1) + 2 * w + 2

    def gate_clauses(self, i, w, gate):
        """The equation of rail 0, and then that of rail 1."""
        w0, w1 = self.rail0(i, w), self.rail1(i, w)
        kind = gate[0]
        if kind == ZERO:
            return always(w0) + never(w1)
        if kind == ONE:
            return never(w0) + always(w1)
        y0, y1 = self.rail0(i, gate[1]), self.rail1(i, gate[1])
        if kind == COPY:
            return same(w0, y0) + same(w1, y1)
        if kind == NOT:
            return same(w0, y1) + same(w1, y0)
        z0, z1 = self.rail0(i, gate[2]), self.rail1(i, gate[2])
        if kind == AND:
            return either(w0, y0, z0) + both(w1, y1, z1)
        if kind == OR:
            return both(w0, y0, z0) + either(w1, y1, z1)
        if kind == IMPLIES:
            return both(w0, y1, z0) + either(w1, y0, z1)
        assert kind == XOR
        return two_boths(w0, y0, z0, y1, z1) + two_boths(w1, y0, z1, y1, z0)

    def frame_clauses(self, i, starts):
        out = []
        for w, gate in enumerate(self.gates):
            w0, w1 = self.rail0(i, w), self.rail1(i, w)
            out.append([-w0, -w1])
            if gate[0] == INPUT:
                out.append([w0, w1])
            elif gate[0] == REGISTER:
                out.append([w0, w1])
                if i > 1:
                    out += same(w0, self.rail0(i - 1, gate[1]))
                elif starts:
                    out.append([w0])
            else:
                out += self.gate_clauses(i, w, gate)
        return out

    def mark_clauses(self, i, marks):
        out = []
        for w, u in enumerate(marks):
            out += [[-u, -self.rail0(i, w)], [-u, -self.rail1(i, w)]]
        return out


def base(board):
    f = Formula(board)
    n, d = f.n, f.d
    first = 2 * n * d + 1
    clauses, marks = [], []
    for i in range(1, d + 1):
        clauses += f.frame_clauses(i, True)
    for i in range(1, d + 1):
        row = [first + n * (i - 1) + w for w in range(n)]
        clauses += f.mark_clauses(i, row)
        marks += row
    clauses.append(marks + [-f.rail1(i, f.p) for i in range(1, d + 1)])
    return 3 * n * d, clauses


def step(board):
    f = Formula(board)
    n, m, d = f.n, f.m, f.d
    after_rails = 2 * n * (d + 1)
    clauses = []
    for i in range(1, d + 2):
        clauses += f.frame_clauses(i, False)
    for i in range(1, d + 1):
        clauses += [[f.rail0(i, w), f.rail1(i, w)] for w in range(n)]
        clauses.append([f.rail1(i, f.p)])
    marks = [after_rails + w + 1 for w in range(n)]
    clauses += f.mark_clauses(d + 1, marks)
    clauses.append(marks + [-f.rail1(d + 1, f.p)])
    q = 0
    for j in range(1, d + 2):
        for i in range(1, j):
            differences = [after_rails + n + m * q + rank + 1 for rank in range(m)]
            for e, w in zip(differences, f.registers):
                a, b = f.rail0(i, w), f.rail0(j, w)
                clauses += [[-e, a, b], [-e, -a, -b]]
            clauses.append(differences)
            q += 1
    return after_rails + n + m * d * (d + 1) // 2, clauses


def text(formula):
    variables, clauses = formula
    lines = [f"p cnf {variables} {len(clauses)}"]
    lines += [" ".join(str(literal) for literal in clause + [0]) for clause in clauses]
    return "\n".join(lines) + "\n"


def main():
    board = read_board(pathlib.Path(sys.argv[1]).read_bytes())
    folder = pathlib.Path(sys.argv[2])
    (folder / "base.cnf").write_text(text(base(board)))
    (folder / "step.cnf").write_text(text(step(board)))


if __name__ == "__main__":
    main()
