"""Reference model of the analysis, from docs/METHOD.md.

sheet(task) gives the rounds of the four tables (A, R, C, W) and the four numbers of each point.
"""


def settle(n, inputs, order, start, merge, advance):
    """The rounds and the settled rows: each row merges the advanced rows of its inputs."""
    rows = [start] * n
    rounds = 0
    while True:
        rounds += 1
        before = list(rows)
        for p in order:
            row = start
            for q in inputs[p]:
                row = merge(row, advance(q, rows[q]))
            rows[p] = row
        if rows == before:
            return rounds, rows


def sheet(task):
    n = len(task.points)
    blocks = list(dict.fromkeys(p.block for p in task.points if p.block is not None))
    home = {b: b % task.sets for b in blocks}
    successors = [list(p.successors) for p in task.points]
    predecessors = [[q for q in range(n) if p in successors[q]] for p in range(n)]
    ways = task.ways

    def age(p, row):
        b = task.points[p].block
        if b is None:
            return row
        old = dict(row)
        new = {m: min(a + 1, ways) if home[m] == home[b] and a <= old[b] else a for m, a in row}
        new[b] = 0
        return tuple(new.items())

    def smaller(x, y):
        y = dict(y)
        return tuple((m, min(a, y[m])) for m, a in x)

    def conflict(p, row):
        b = task.points[p].block
        if b is None:
            return row
        new = {m: s | {b} if s is not None and home[m] == home[b] else s for m, s in row}
        new[b] = frozenset()
        return tuple(new.items())

    def union(x, y):
        y = dict(y)
        return tuple((m, s if y[m] is None else y[m] if s is None else s | y[m]) for m, s in x)

    ages = tuple((b, ways) for b in blocks)
    none = tuple((b, None) for b in blocks)
    rising, falling = range(n), range(n - 1, -1, -1)
    ra, A = settle(n, predecessors, rising, ages, smaller, age)
    rr, R = settle(n, successors, falling, ages, smaller, age)
    rc, C = settle(n, predecessors, rising, none, union, conflict)

    def use(p, row):
        b = task.points[p].block
        if b is None:
            return row
        new, conflicts = dict(row), dict(C[p])[b]
        new[b] = None if conflicts is None else len(conflicts)
        return tuple(new.items())

    def larger(x, y):
        y = dict(y)
        return tuple((m, max((v for v in (k, y[m]) if v is not None), default=None)) for m, k in x)

    rw, W = settle(n, successors, falling, none, larger, use)

    records = []
    for p in range(n):
        a, r, w = dict(A[p]), dict(age(p, R[p])), dict(use(p, W[p]))
        total = [0, 0, 0, 0]
        for s in range(task.sets):
            e = sum(b % task.sets == s for b in task.evicting)
            useful = [m for m in blocks if home[m] == s and a[m] < ways and r[m] < ways]
            reached = [m for m in useful if w[m] is not None and w[m] + e >= ways]
            total[0] += min(ways, len(useful))
            if e > 0:
                total[1] += ways
                total[2] += min(ways, len(useful))
                total[3] += min(ways, len(reached))
        records.append(tuple(total))
    return (ra, rr, rc, rw), records


def sheet_text(task):
    """The rounds, then what the program prints."""
    rounds, records = sheet(task)
    most = max(r[3] for r in records)
    lines = ["rounds " + " ".join(map(str, rounds)), "point useful evicting combined resilient"]
    lines += [f"{p} " + " ".join(map(str, r)) for p, r in enumerate(records)]
    lines.append(f"largest {most} cost {most * task.reload}")
    return "\n".join(lines)
