#!/usr/bin/env python3
"""Random kernels whose turns may run in any order, beside a plain model of them: on which cell `check` says that two turns
meet, and what `step --fine --turns` prints by a random order of their loads and stores.

usage: turns.py OMPC [COUNT [SEED]]
"""
import itertools
import random
import subprocess
import sys
import tempfile

ARRAYS = "ABC"
LENGTH = 16


class Kernel:
    """A nest of loops over statements; of the `depth` outermost ones the turns are unordered."""

    def __init__(self, rng):
        self.rng = rng
        self.names = ["i", "j", "l"][: rng.choice([1, 1, 2, 3])]
        self.bounds = [(rng.randrange(2), rng.randrange(1, 5), rng.choice([1, 1, 2])) for _ in self.names]
        self.depth = rng.randrange(1, len(self.names) + 1)
        self.body = [self.statement(self.names, 0) for _ in range(rng.randrange(1, 4))]

    def expression(self, names, level=0):
        pick = self.rng.random()
        if level > 1 or pick < 0.35:
            return self.rng.randrange(6)
        if pick < 0.75:
            return self.rng.choice(names)
        return (self.rng.choice("+*+"), self.expression(names, level + 1), self.expression(names, level + 1))

    def statement(self, names, level):
        rng, pick = self.rng, self.rng.random()
        if pick < 0.6 or level > 1:
            reads = [(rng.choice(ARRAYS), self.expression(names)) for _ in range(rng.randrange(3))]
            return ("store", rng.choice(ARRAYS), self.expression(names), reads, rng.randrange(5))
        below = lambda least: [self.statement(names, level + 1) for _ in range(rng.randrange(least, least + 2))]
        if pick < 0.8:
            return ("if", self.expression(names), rng.choice(["==", "<"]), self.expression(names), below(1), below(0))
        name = f"k{level}"
        inner = [self.statement(names + [name], level + 1) for _ in range(rng.randrange(1, 3))]
        return ("for", name, rng.randrange(1, 4), inner)

    def turns(self):
        """The values of the unordered loops' names, turn after turn."""
        return itertools.product(*[range(*it) for it in self.bounds[: self.depth]])

    def actions(self, outer):
        """The loads and stores of a turn: a generator that is sent what each load gives."""
        for inner in itertools.product(*[range(*it) for it in self.bounds[self.depth :]]):
            env = dict(zip(self.names, outer + inner))
            for it in self.body:
                yield from actions(it, env)

    def source(self):
        lines = [f"uint64_t {a}[{LENGTH}];" for a in ARRAYS] + ["int main(void) {"]
        cells = f"for (uint64_t z = 0; z < {LENGTH}; z += 1)"
        lines += [f"{cells} {{ {a}[z] = z * {at} + 1; }}" for at, a in enumerate(ARRAYS, 1)]
        lines.append(f"#pragma omp target teams distribute parallel for collapse({self.depth})")
        for name, (first, end, step) in zip(self.names, self.bounds):
            lines.append(f"for (uint64_t {name} = {first}; {name} < {end}; {name} += {step}) {{")
        lines += [text(it) for it in self.body] + ["}" * len(self.names)]
        lines += [f"{cells} {{ print({a}[z]); }}" for a in ARRAYS] + ["}"]
        return "\n".join(lines) + "\n"


def value(e, env):
    if isinstance(e, int):
        return e
    if isinstance(e, str):
        return env[e]
    left, right = value(e[1], env), value(e[2], env)
    return left + right if e[0] == "+" else left * right


def shown(e):
    return str(e) if isinstance(e, (int, str)) else f"({shown(e[1])} {e[0]} {shown(e[2])})"


def text(it):
    if it[0] == "store":
        terms = [str(it[4])] + [f"{a}[{shown(e)} % {LENGTH}]" for a, e in it[3]]
        return f"{it[1]}[{shown(it[2])} % {LENGTH}] = {' + '.join(terms)};"
    if it[0] == "if":
        first, second = (" ".join(map(text, branch)) for branch in it[4:])
        return f"if ({shown(it[1])} {it[2]} {shown(it[3])}) {{ {first} }} else {{ {second} }}"
    return f"for (uint64_t {it[1]} = 0; {it[1]} < {it[2]}; {it[1]} += 1) {{ {' '.join(map(text, it[3]))} }}"


def actions(it, env):
    if it[0] == "store":
        total = it[4]
        for array, e in it[3]:
            total += yield ("load", (array, value(e, env) % LENGTH), None)
        yield ("store", (it[1], value(it[2], env) % LENGTH), total % 2**64)
    elif it[0] == "if":
        left, right = value(it[1], env), value(it[3], env)
        for below in it[4] if (left == right if it[2] == "==" else left < right) else it[5]:
            yield from actions(below, env)
    else:
        for turn in range(it[2]):
            for below in it[3]:
                yield from actions(below, {**env, it[1]: turn})


def fresh():
    return {(a, z): z * at + 1 for at, a in enumerate(ARRAYS, 1) for z in range(LENGTH)}


def run(kernel, order):
    """What the arrays have after the kernel, where each number of the order picks one of the turns that have an action."""
    memory, waiting = fresh(), []
    for outer in kernel.turns():
        turn = kernel.actions(outer)
        action = next(turn, None)
        if action:
            waiting.append((turn, action))
    for number in itertools.chain(order, itertools.repeat(0)):
        if not waiting:
            return memory
        at = number % len(waiting)
        turn, (what, cell, stored) = waiting[at]
        if what == "store":
            memory[cell] = stored
        try:
            waiting[at] = (turn, turn.send(memory[cell] if what == "load" else None))
        except StopIteration:
            waiting.pop(at)


def meeting(kernel):
    """The least cell on which two turns meet, if there is one."""
    touched = []
    for outer in kernel.turns():
        reads, writes, turn = set(), set(), kernel.actions(outer)
        action = next(turn, None)
        while action:
            (reads if action[0] == "load" else writes).add(action[1])
            try:
                action = turn.send(0)
            except StopIteration:
                break
        touched.append((reads, writes))
    pairs = itertools.permutations(touched, 2)
    return min((cell for one, other in pairs for cell in one[1] & (other[0] | other[1])), default=None)


def main(program, count=100, seed=1):
    rng, refused = random.Random(seed), 0
    with tempfile.NamedTemporaryFile("w", suffix=".c") as file:
        for number in range(count):
            kernel = Kernel(rng)
            file.seek(0)
            file.truncate()
            file.write(kernel.source())
            file.flush()
            cell = meeting(kernel)
            refused += cell is not None
            ran = subprocess.run([program, "check", file.name], capture_output=True, text=True, check=False)
            said = ran.stderr.splitlines()[-1:] if ran.returncode else ran.stdout.splitlines()[:1]
            wanted = f"E510 item 1 {cell[0]}[{cell[1]}]" if cell else "accepted"
            assert said == [wanted], (number, said, wanted, kernel.source())
            order = [rng.randrange(9) for _ in range(rng.randrange(60))]
            words = [program, "step", file.name, "--fine", "--turns", ",".join(map(str, order))]
            out = subprocess.run(words, capture_output=True, text=True, check=False).stdout
            memory = run(kernel, order)
            lines = [str(memory[a, z]) for a in ARRAYS for z in range(LENGTH)]
            assert out.splitlines()[: len(lines)] == lines, (number, order, kernel.source())
            assert cell or memory == run(kernel, []), (number, order, kernel.source())
    print(f"{count} kernels: {count - refused} independent, {refused} refused; each as the plain model says")


main(sys.argv[1], *map(int, sys.argv[2:]))
