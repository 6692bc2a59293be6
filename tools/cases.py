"""Random task files and run texts. Everything comes from the random.Random that is given."""
from dataclasses import dataclass, field

LIVES = {2: 2, 4: 3, 8: 4}  # of the tree cache, by its ways
BLOCK_LIMIT = 1 << 24


@dataclass
class Task:
    sets: int
    ways: int
    reload: int
    points: list = field(default_factory=list)  # (block or None, successors)
    evicting: list = field(default_factory=list)

    def fields(self):
        """The fields of the file, each as (tag, body)."""
        yield 1, bytes([self.sets, self.ways]) + self.reload.to_bytes(4, "big")
        for block, successors in self.points:
            mark = b"\0" if block is None else b"\1" + block.to_bytes(4, "big")
            yield 2, mark + bytes(successors)
        for block in self.evicting:
            yield 3, block.to_bytes(4, "big")
        yield 4, b""

    def file(self):
        return join(self.fields())


def join(fields):
    return b"".join(bytes([tag]) + len(body).to_bytes(2, "big") + body for tag, body in fields)


# --- Tasks ---

def successors(rng, style, p, points):
    """Successors of point p: a random graph, or a line with loops and branches."""
    if style == "graph":
        few = min(points, rng.choice([0, 1, 1, 1, 2, 2, 3, 4]))
        return sorted(rng.sample(range(points), few))
    chosen = {p + 1} if p + 1 < points and rng.random() < 0.95 else set()
    if rng.random() < 0.3:
        chosen.add(rng.randint(0, p))
    while rng.random() < 0.25:
        chosen.add(min(points - 1, p + rng.randint(1, 4)))
    if style == "loop" and p + 1 == points and rng.random() < 0.8:
        chosen.add(0)
    return sorted(chosen)[:4]


def evicting_blocks(rng, pool, most, top):
    """Some of the task's own blocks, and others."""
    own = [b for b in pool if rng.random() < 0.3]
    others = [rng.randrange(top) for _ in range(most)]
    blocks = sorted(set(own + others))
    return sorted(rng.sample(blocks, min(most, len(blocks))))


def small_task(rng, ways=None):
    sets = rng.choice([1, 1, 1, 2, 2, 3])
    ways = ways or rng.choice([1, 2, 2, 3, 4, 4, 5, 8])
    size = rng.randint(1, sets * ways + 3)
    top = rng.choice([size + 2, 2 * size, 24, BLOCK_LIMIT])
    pool = sorted({rng.randrange(top) for _ in range(size)})
    task = Task(sets, ways, rng.choice([0, 1, 10, 1_000_000, rng.randrange(1_000_000)]))
    count = rng.choice([1, 2, rng.randint(3, 8), rng.randint(5, 20), rng.randint(8, 30)])
    style, bare = rng.choice(["graph", "line", "loop", "loop"]), rng.choice([0, 0.1, 0.4])
    for p in range(count):
        block = None if rng.random() < bare else rng.choice(pool)
        task.points.append((block, successors(rng, style, p, count)))
    task.evicting = evicting_blocks(rng, pool, rng.choice([0, 1, 1, 2, 3, 4, 6, 12]), top)
    return task


def large_task(rng, ways=None):
    sets = rng.choice([1, 1, 2, 3, 4, 8, 16, 64, rng.randint(1, 64)])
    task = Task(sets, ways or rng.choice([8, rng.randint(1, 8)]), rng.randint(0, 1_000_000))
    top = rng.choice([64, 128, BLOCK_LIMIT])
    pool = rng.sample(range(top), rng.choice([64, rng.randint(32, 64)]))
    count = rng.choice([128, 128, rng.randint(90, 128)])
    style = rng.choice(["four", "four", "graph", "line", "loop"])
    for p in range(count):
        follow = sorted(rng.sample(range(count), 4)) if style == "four" else successors(rng, style, p, count)
        # The first points access each block once, so that all of them occur.
        block = pool[p] if p < len(pool) else rng.choice(pool) if rng.random() < 0.95 else None
        task.points.append((block, follow))
    if rng.random() < 0.5:
        rng.shuffle(task.points)
    task.evicting = evicting_blocks(rng, pool, rng.choice([1, 8, 64, rng.randint(0, 64)]), max(top, 128))
    if rng.random() < 0.2:
        task.evicting = sorted(rng.sample(range(128), 64))
    return task


def full_task(rng, sets, ways):
    """A task at every limit: 128 points with four random successors, 64 blocks, 64 evicting blocks."""
    task = Task(sets, ways, 18)
    blocks = list(range(64)) * 2
    rng.shuffle(blocks)
    task.points = [(block, sorted(rng.sample(range(128), 4))) for block in blocks]
    task.evicting = list(range(1000, 1064))
    return task


def any_task(rng, ways=None):
    return (large_task if rng.random() < 0.15 else small_task)(rng, ways)


# --- Damaged files ---

def exceed(rng, task):
    """Breaks one limit of the task, and gives the fields of its file."""
    what = rng.randrange(13)
    points, p = task.points, rng.randrange(len(task.points))
    if what == 0:
        task.sets = rng.choice([0, 65, 255])
    elif what == 1:
        task.ways = rng.choice([0, 9, 255])
    elif what == 2:
        task.reload = rng.choice([1_000_001, 2**32 - 1])
    elif what == 3:
        points[p] = rng.choice([BLOCK_LIMIT, 2**32 - 1]), points[p][1]
    elif what == 4:
        task.evicting.append(rng.choice([BLOCK_LIMIT, 2**32 - 1]))
    elif what == 5:
        points[p] = points[p][0], points[p][1] + points[p][1][-1:]
    elif what == 6:
        points[p] = points[p][0], sorted(rng.sample(range(256), rng.randint(1, 4)))
    elif what == 7:
        few = rng.choice([4, 5, 6, 8])
        points[p] = None, sorted(rng.sample(range(max(few, len(points))), few))
    elif what == 8:
        task.evicting = sorted(rng.sample(range(200), rng.choice([64, 65, 66])))
    elif what == 9:
        points += [(points[p][0], []) for _ in range(rng.choice([127, 128, 129]) - len(points))]
    elif what == 10:
        points[:] = [(1000 + i, []) for i in range(rng.choice([64, 65, 66]))]
    elif what == 11:
        rng.shuffle(task.evicting)
    else:
        points[p] = points[p][0], [len(points)]
    return list(task.fields())


def change_field(rng, fields):
    """Damages a list of fields."""
    what, i, j = rng.randrange(8), rng.randrange(len(fields)), rng.randrange(len(fields))
    tag, body = fields[i]
    if what == 0:
        del fields[i]
    elif what == 1:
        fields.insert(j, fields[i])
    elif what == 2:
        fields[i], fields[j] = fields[j], fields[i]
    elif what == 3:
        fields[i] = rng.choice([0, 1, 2, 3, 4, 5, 255]), body
    elif what == 4:
        fields[i] = tag, body + bytes(rng.randint(1, 4))
    elif what == 5:
        fields[i] = tag, body[:-1]
    elif what == 6 and body:
        k = rng.randrange(len(body))
        fields[i] = tag, body[:k] + bytes([rng.choice([0, 1, 2, 3, 128, 255])]) + body[k + 1:]
    else:
        fields.append((rng.randint(1, 4), bytes(rng.randrange(10))))


def change_byte(rng, file):
    """Damages bytes."""
    what, i, j = rng.randrange(7), rng.randrange(len(file) + 1), rng.randrange(len(file) + 1)
    if what == 0:
        return file[:i]
    if what == 1:
        return file[:i] + bytes([rng.randrange(256)]) + file[i + 1:]
    if what == 2:
        return file[:i] + bytes([rng.choice([0, 1, 2, 3, 4])]) + file[i:]
    if what == 3:
        return file[:i] + file[i:i + 1] * 2 + file[i + 1:]
    if what == 4:
        return file[:i] + file[i + 1:]
    if what == 5:
        i, j = min(i, j), max(i, j)
        return file[:i] + file[j:j + 1] + file[i + 1:j] + file[i:i + 1] + file[j + 1:]
    return file + bytes(rng.choice([1, 2, 3, 5000]))


def damaged_file(rng):
    kind = rng.random()
    if kind < 0.03:
        return bytes(rng.choice([0, 1, 1, 2, 3, 4, 6, rng.randrange(256)]) for _ in range(rng.randrange(40)))
    task = any_task(rng)
    if kind < 0.4:
        fields = exceed(rng, task)
        if rng.random() < 0.2:
            change_field(rng, fields)
        return join(fields)
    if kind < 0.7:
        fields = list(task.fields())
        for _ in range(rng.choice([1, 1, 2])):
            change_field(rng, fields or [(4, b"")])
        return join(fields)
    file = task.file()
    for _ in range(rng.choice([1, 1, 1, 2, 3])):
        file = change_byte(rng, file)
    return file


# --- Runs ---

class Walker:
    """Writes calls, and keeps the state that they lead to."""

    def __init__(self, rng, task):
        self.rng, self.task = rng, task
        self.point, self.state, self.lines = 0, "walking", []

    def number(self, n):
        return str(n) if self.rng.random() < 0.97 else f"{n:0{self.rng.randint(1, 12)}}"

    def step(self):
        """A step, or the end of the run at an exit."""
        follow = self.task.points[self.point][1]
        if follow:
            self.point = self.rng.choice(follow)
            self.lines.append(f"step {self.number(self.point)}")
        else:
            self.state = "ended"
            self.lines.append("finish")

    def interrupt(self, most_touches):
        self.lines.append("interrupt")
        for _ in range(self.rng.randint(0, most_touches)):
            self.touch()
        self.lines.append("resume")

    def touch(self):
        if self.task.evicting:
            self.lines.append(f"touch {self.number(self.rng.choice(self.task.evicting))}")

    def odd(self):
        """A call that is mostly refused, or no call at all."""
        rng = self.rng
        call = rng.choice(["step", "step", "finish", "interrupt", "touch", "touch", "resume", "none"])
        if call == "step":
            point = rng.choice([rng.randrange(len(self.task.points) + 2), 200, 2**32, 2**64 - 1])
            if self.state == "walking" and point in self.task.points[self.point][1]:
                self.point = point
            call = f"step {point}"
        elif call == "touch":
            call = f"touch {rng.choice([rng.randrange(20), BLOCK_LIMIT, 2**32 - 1])}"
        elif call == "finish" and self.state == "walking" and not self.task.points[self.point][1]:
            self.state = "ended"
        elif call == "interrupt" and self.state == "walking":
            self.state = "interrupted"
        elif call == "resume" and self.state == "interrupted":
            self.state = "walking"
        elif call == "none":
            call = rng.choice(["", "   ", "#", "# a word", "# ä \0 ☃", "#step 1"])
        self.lines.append(call)

    def go(self):
        """The next line or lines."""
        chance = self.rng.random()
        if chance < 0.07:
            self.odd()
        elif chance < 0.1:
            self.lines.append("read")
        elif self.state == "interrupted":
            if chance < 0.7:
                self.touch()
            else:
                self.state = "walking"
                self.lines.append("resume")
        elif self.state == "ended":
            self.odd()
        elif chance < 0.2:
            self.state = "interrupted"
            self.lines.append("interrupt")
        else:
            # An exit is put off now and then, since nothing but refusals comes after it.
            if self.task.points[self.point][1] or chance < 0.5:
                self.step()
            else:
                self.odd()


def fitting(rng, policy):
    """Ways of a cache, and of the tasks that it can run."""
    if policy == "lru":
        ways = rng.randint(1, 8)
        return ways, ways
    if policy == "fifo":
        return rng.randint(1, 8), 1
    ways = rng.choice([2, 4, 8])
    return ways, LIVES[ways]


def task_line(rng, file):
    digits = file.hex()
    if rng.random() < 0.2:
        digits = digits.upper()
    if rng.random() < 0.2:
        i = rng.randrange(len(digits) + 1)
        digits = digits[:i] + " " * rng.randint(1, 3) + digits[i:]
    return f"task {digits}"


def as_text(rng, lines):
    """The lines joined, now and then with other line ends."""
    end = "\r\n" if rng.random() < 0.1 else "\n"
    if rng.random() < 0.2:
        lines.insert(rng.randint(0, 2), rng.choice(["", "# a run", "  "]))
    return end.join(lines) + (end if rng.random() < 0.9 else "")


def run_lines(rng, task, policy, sets, ways, calls):
    walker, after = Walker(rng, task), rng.randint(0, 8)
    while len(walker.lines) < calls and after:
        walker.go()
        after -= walker.state == "ended"
    return [task_line(rng, task.file()), f"cache {policy} {sets} {ways}"] + walker.lines


def fitting_run(rng):
    policy = rng.choice(["lru", "fifo", "tree"])
    ways, life = fitting(rng, policy)
    task = any_task(rng, life)
    # Mostly a task that does not end at once.
    while not task.points[0][1] and rng.random() < 0.9:
        task = any_task(rng, life)
    return run_lines(rng, task, policy, task.sets, ways, rng.choice([5, 30, 100, 400]))


def obeyed_run(rng):
    return as_text(rng, fitting_run(rng)).encode()


def barred_run(rng):
    task, policy = any_task(rng), rng.choice(["lru", "fifo", "tree"])
    sets = rng.choice([task.sets, task.sets % 64 + 1, rng.randint(1, 64)])
    ways = rng.choice([2, 4, 8]) if policy == "tree" else rng.randint(1, 8)
    return as_text(rng, run_lines(rng, task, policy, sets, ways, 12)).encode()


def refused_cache_run(rng):
    task, policy = small_task(rng), rng.choice(["lru", "fifo", "tree"])
    sets = rng.choice([0, 1, task.sets, 64, 65, 256, 2**32 - 1])
    ways = rng.choice([0, 1, 3, 5, 6, 7, 9, 16, 264, 2**32 - 1])
    return as_text(rng, run_lines(rng, task, policy, sets, ways, 5)).encode()


def refused_task_run(rng):
    lines = [task_line(rng, damaged_file(rng)), "cache lru 1 4", "read"]
    return as_text(rng, lines).encode()


def change_line(rng, line):
    """Damages a line."""
    what, i = rng.randrange(12), rng.randrange(len(line) + 1)
    if what == 0:
        return line[:i] + rng.choice(" \t\r#x0-+.,\x0b\0é☃") + line[i:]
    if what == 1:
        return line[:i] + line[i + 1:]
    if what == 2:
        return line.replace(" ", rng.choice(["", "  ", "\t"]), 1)
    if what == 3:
        return line + rng.choice([" ", "\t", "\r", " 1", "0", "x"])
    if what == 4:
        return " " + line
    if what == 5:
        return line.upper()
    if what == 6:
        return line.split(" ")[0]
    if what == 7:
        return line.split(" ")[0] + " " + rng.choice(["", "-1", "+1", "0x1", "1e1", "1.0", "٣", "one"])
    if what == 8:
        word = rng.choice(["step", "touch", "cache lru 1"])
        return f"{word} {rng.choice([2**32 - 1, 2**32, 2**64 - 1, 2**64, 10**30])}"
    if what == 9:
        return rng.choice(["stop", "steps 1", "reads", "end", "task", "task ", "task 0", "cache", "cache lru",
                           "cache plru 1 4", "cache lru 1 4 1", "cache lru 4294967297 4", "finish 1", "read 1"])
    if what == 10:
        return line + line
    return line[:i] + "\n" + line[i:]


def misread_run(rng):
    lines = fitting_run(rng)[:rng.choice([2, 3, 10, 40])]
    for _ in range(rng.choice([1, 1, 2])):
        i = rng.choice([0, 1, rng.randrange(len(lines))])
        lines[i] = change_line(rng, lines[i])
    if rng.random() < 0.1:
        lines = lines[rng.randint(0, 1):]
    if rng.random() < 0.1:
        lines = lines[:rng.randint(0, 2)]
    text = as_text(rng, lines).encode()
    if rng.random() < 0.05:
        i = rng.randrange(len(text) + 1)
        text = text[:i] + rng.choice([b"\xff", b"\xc3", b"\xed\xa0\x80", b"\xc0\x80"]) + text[i:]
    return text


def long_run(rng, task, policy, ways, steps, interruptions, most_touches):
    """A run of that many steps and interruptions, on a task without exits."""
    walker = Walker(rng, task)
    between = max(1, steps // (interruptions + 1))
    for i in range(steps):
        if i % between == 0 and interruptions:
            interruptions -= 1
            walker.interrupt(most_touches)
        walker.step()
    lines = [f"task {task.file().hex()}", f"cache {policy} {task.sets} {ways}"] + walker.lines
    return "\n".join(lines) + "\n"


def limit_run(rng):
    """A run that uses up its steps or its interruptions."""
    policy = rng.choice(["lru", "fifo", "tree"])
    ways, life = fitting(rng, policy)
    task = full_task(rng, rng.choice([1, 4, 16]), life)
    steps, interruptions = rng.choice([(60_003, 1_000), (60_003, 3), (2_000, 1_003)])
    text = long_run(rng, task, policy, ways, steps, interruptions, 2)
    return (text + "interrupt\nread\nresume\nfinish\nstep 1\nstep 500\ntouch 1\n").encode()


KINDS = {  # name: (program, maker, weight)
    "small tasks": ("crpd", lambda rng: small_task(rng).file(), 30),
    "large tasks": ("crpd", lambda rng: large_task(rng).file(), 8),
    "damaged files": ("crpd", damaged_file, 22),
    "obeyed runs": ("replay", obeyed_run, 22),
    "barred runs": ("replay", barred_run, 5),
    "refused caches": ("replay", refused_cache_run, 3),
    "refused tasks": ("replay", refused_task_run, 3.8),
    "misread runs": ("replay", misread_run, 6),
    "limit runs": ("replay", limit_run, 0.2),
}
