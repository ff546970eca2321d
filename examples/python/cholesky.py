"""A tiled Cholesky factorisation of a matrix of the program's own, by calls whose bodies are the functions below.

The result is that of the same functions called one after another, bit by bit. Usage: cholesky.py SIDE TILE THREADS
"""

import math
import sys

import realm


def potrf(a):
    for j in range(len(a)):
        for k in range(j):
            for i in range(j, len(a)):
                a[i][j] -= a[i][k] * a[j][k]
        root = math.sqrt(a[j][j])
        for i in range(j, len(a)):
            a[i][j] /= root
        for i in range(j):
            a[i][j] = 0.0


def trsm(a, b):
    for row in b:
        for j in range(len(a)):
            for k in range(j):
                row[j] -= row[k] * a[j][k]
            row[j] /= a[j][j]


def gemm(a, b, c):
    for x, row in zip(a, c):
        for j, y in enumerate(b):
            row[j] -= sum(p * q for p, q in zip(x, y))


def steps(count):
    """The calls in the order of the sequential program: the function's word, and the tiles that it reads; it writes the last one."""
    for k in range(count):
        yield "potrf", [(k, k)]
        for i in range(k + 1, count):
            yield "trsm", [(k, k), (i, k)]
        for i in range(k + 1, count):
            for j in range(k + 1, i + 1):
                yield "gemm", [(i, k), (j, k), (i, j)]


def graph(count):
    """The graph of the calls. Each waits for the last ones that wrote a tile of it; no tile is written after others read it."""
    lines = ["realm 3", f"space all 0..{count * count - 1}"]
    lines += [f"space t{i}_{j} {i * count + j}..{i * count + j}" for i in range(count) for j in range(i + 1)]
    lines.append("data A all x")
    written = {}
    for number, (word, tiles) in enumerate(steps(count)):
        reads = dict.fromkeys(tiles[:-1])
        accesses = [*(f"read A.x t{i}_{j}" for i, j in reads), "write A.x t{}_{}".format(*tiles[-1])]
        events = sorted({written[it] for it in tiles if it in written})
        on = " on " + " ".join(f"c{it}" for it in events) if events else ""
        lines.append(f"c{number} = call {word} {number} {' '.join(accesses)}{on}")
        written[tiles[-1]] = number
    return "\n".join([*lines, "end", ""])


def matrix(count, side):
    """Tiles of a matrix that is symmetric, and great on the diagonal."""
    n = count * side

    def cell(i, j):
        return float(n) if i == j else 1.0 / (1 + abs(i - j))

    return {(i, j): [[cell(i * side + p, j * side + q) for q in range(side)] for p in range(side)] for i in range(count) for j in range(count)}


def main(words):
    side, of_tile, threads = map(int, words)
    count = side // of_tile
    functions = {"potrf": potrf, "trsm": trsm, "gemm": gemm}
    order = list(steps(count))
    one, many = matrix(count, of_tile), matrix(count, of_tile)
    for word, tiles in order:
        functions[word](*(one[it] for it in tiles))

    def body(call):
        functions[call.word](*(many[it] for it in order[call.values[0]][1]))

    with realm.Run(graph(count)) as run:
        run.perform_all(threads, dict.fromkeys(functions, body))
    print("the same, bit by bit" if one == many else "another result")
    return one != many


if __name__ == "__main__":
    sys.exit(main(sys.argv[1:]))
