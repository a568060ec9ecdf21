"""What the scripts of this folder have in common: small files, tables, words of a command, runs, graphs, and runs below a library.

Each function says what it gives; nothing here is run by itself.
"""
import contextlib
import os
import re
import resource
import subprocess
import sys
import tempfile

# The product of one bit by one bit, and a pair of certificates for it.
ONE_BIT = b"aag 3 2 0 2 1\n2\n4\n6\n0\n6 4 2\n"
NO_CUT = b"joined 1\nnone\n"
ALGEBRA = b"pac 1\n6 % 3 * (-1), x3-x1*x2;\nq 6;\n"

# A pair of version 3 for it: a gate beside the graph takes the place of output 0.
BESIDE = b"joined 3\ngates 1\n4 2\nreplace 1\n0 8\n-3 4 0\n3 -4 0\n"
BESIDE_ALGEBRA = b"pac 3\n7 % 5 * (1) + 4 * (-1), x3-x1*x2;\nq 7;\n"

# The same with the greatest variable that a graph may have, and its algebra certificate.
MOST_VARIABLES = b"aag 4194303 2 0 2 1\n2\n4\n6\n0\n6 4 2\n"
WITH_MOST = b"pac 1\n4194306 % 3 * (-1), x3-x1*x2;\nq 4194306;\n"

# Files.


@contextlib.contextmanager
def scratch():
    """A new folder, which is the current one, and is deleted at the end."""
    with tempfile.TemporaryDirectory() as folder:
        os.chdir(folder)
        yield folder


def read(path):
    """The bytes of a file."""
    with open(path, "rb") as file:
        return file.read()


def write(path, data):
    """Writes bytes or a text to a file."""
    with open(path, "wb") as file:
        file.write(data if isinstance(data, bytes) else data.encode())


def size(path):
    """The bytes that a file has; 0 where there is none."""
    return os.path.getsize(path) if os.path.exists(path) else 0


def remove(paths):
    """Deletes those of the files that are there."""
    for path in paths:
        if os.path.exists(path):
            os.remove(path)


# Tables.


def row(cells, end=" |"):
    """Prints a row of a table."""
    print("| " + " | ".join(str(cell) for cell in cells) + end, flush=True)


def head(cells, rule="---"):
    """Prints the head of a table and what parts it from the rows."""
    row(cells)
    print("|" + "|".join([rule] * len(cells)) + "|", flush=True)


# Words of a command.


def option(words, name, default):
    """The value of an option, which is taken out of the words."""
    if name not in words[:-1]:
        return default
    at = words.index(name)
    value = words[at + 1]
    del words[at : at + 2]
    return value


def options(words, name, default):
    """The values of an option, which stand between commas and are taken out of the words."""
    values = option(words, name, None)
    return default if values is None else values.split(",")


def verifying(program, graph, clauses="clauses", algebra="algebra"):
    """The words that verify a graph and write its certificates to these files."""
    return [program, "verify", graph, "--clauses", clauses, "--algebra", algebra]


# Runs.


def quiet(words):
    """The status of a run, of which nothing else is kept."""
    return subprocess.run(words, stdout=subprocess.DEVNULL, stderr=subprocess.DEVNULL).returncode


def timed(words, limits=()):
    """The report of a run within limits of resources, its seconds of processor time and its peak memory in MB."""
    done, *costs = measured(words, limits)
    return (done.stdout, *costs)


def measured(words, limits=()):
    """A run within limits of resources, its seconds of processor time and its peak memory in MB."""

    def limit():
        for what, most in limits:
            resource.setrlimit(what, (most, most))

    # a child of this interpreter would count the interpreter's own memory, one of `time` doesn't
    timing = ["/usr/bin/time", "-f", "%U %S %M"] + words
    done = subprocess.run(timing, stdout=subprocess.PIPE, stderr=subprocess.PIPE, text=True, preexec_fn=limit if limits else None)
    user, system, peak = done.stderr.split()[-3:]
    return done, float(user) + float(system), int(peak) / 1024


def instructions(words):
    """The instructions of a run, and its report."""
    with tempfile.TemporaryDirectory() as folder:
        log = os.path.join(folder, "log")
        counting = ["valgrind", "--tool=callgrind", "--callgrind-out-file=" + os.devnull, "--log-file=" + log]
        run = subprocess.run(counting + words, stdout=subprocess.PIPE, stderr=subprocess.DEVNULL, text=True)
        with open(log) as lines:
            found = re.search(r"Collected\s*:\s*(\d+)", lines.read())
    if not found:
        sys.exit("valgrind counted nothing: " + " ".join(words))
    return int(found.group(1)), " / ".join(run.stdout.split("\n")).strip(" /")


# Both commands on a graph, each run by a function that gives lines, seconds and MB.

PROVED_HEADS = ["verdict", "note", "check", "verify, s", "MB", "check, s", "clauses, bytes", "algebra, bytes"]


def verify(run, mulver, graph, claim=()):
    """What `run` gives of a `verify` that writes its certificates to `clauses` and `algebra`."""
    remove(["clauses", "algebra"])
    return run(verifying(mulver, graph) + [*claim])


def prove(run, mulver, name, graph, claim=(), more_cells=()):
    """A row below PROVED_HEADS; the verdict, what `check` says of a proved graph's certificates, and the seconds and MB of both."""
    verdict, seconds, peak = verify(run, mulver, graph, claim)
    checked, more = ["-"], 0.0
    if verdict[0] == "proved":
        checked, more, _ = run([mulver, "check", graph, "clauses", "algebra", *claim])
    costs = ["%.2f" % seconds, "%.0f" % peak, "%.2f" % more]
    row([name, *more_cells] + verdict + checked + costs + [size("clauses"), size("algebra")])
    return verdict[0], checked[0], seconds, peak, more


# Graphs: the greatest variable, the inputs, the outputs, and the gates as their left side and both operands.


def graph_of(data):
    """The graph of an ascii or binary file."""
    header, _, rest = data.partition(b"\n")
    greatest, inputs, _, outputs, gates = [int(word) for word in header.split()[1:6]]
    if header.startswith(b"aag"):
        rows = [[int(word) for word in line.split()] for line in rest.split(b"\n")[: inputs + outputs + gates]]
        flat = [literals[0] for literals in rows[: inputs + outputs]]
        return greatest, flat[:inputs], flat[inputs:], rows[inputs + outputs :]
    outs, listed = [], []
    for _ in range(outputs):
        line, _, rest = rest.partition(b"\n")
        outs.append(int(line))
    bytes_ = iter(rest)
    for left in range(2 * inputs + 2, 2 * (inputs + gates) + 2, 2):
        one = left - difference(bytes_)
        listed.append([left, one, one - difference(bytes_)])
    return greatest, [2 * i + 2 for i in range(inputs)], outs, listed


def difference(bytes_):
    """The next number of a binary graph's gates: seven bits a byte, the lowest first."""
    value = shift = 0
    for byte in bytes_:
        value |= (byte & 127) << shift
        shift += 7
        if byte < 128:
            return value
    raise EOFError("a gate is cut off")


def write_graph(path, graph):
    """Writes a graph to an ascii file."""
    greatest, inputs, outputs, gates = graph
    lines = ["aag %d %d 0 %d %d" % (greatest, len(inputs), len(outputs), len(gates))]
    lines += ["%d" % literal for literal in inputs + outputs] + ["%d %d %d" % tuple(gate) for gate in gates]
    write(path, "\n".join(lines) + "\n")


def values(graph, pairs):
    """The graph's values on these operands, all in one walk over its gates, each of which stands behind those that it reads."""
    _, inputs, outputs, gates = graph
    bits, all_ones, at = len(inputs) // 2, (1 << len(pairs)) - 1, {0: 0}

    def of(literal):
        return at[literal & ~1] ^ (all_ones if literal & 1 else 0)

    backward = pairs[::-1]
    for place, literal in enumerate(inputs):
        at[literal] = int("".join("01"[pair[place // bits] >> place % bits & 1] for pair in backward), 2)
    for left, one, two in gates:
        at[left] = of(one) & of(two)
    words = [format(of(literal), "0%db" % len(pairs)) for literal in reversed(outputs)]
    return [int("".join(column), 2) for column in zip(*words)][::-1]


# Runs below a small library that stands before the C library's own (LD_PRELOAD) and lets calls fail.

SMALL_FILES = {"one": ONE_BIT, "none": NO_CUT, "one.a": ALGEBRA}
PAIR = ["--clauses", "x", "--algebra", "y"]
CREATED = ("x", "y", "x.aig")


def outcome(mulver, words, more):
    """How a run with more variables of the environment ended, and the bytes of each file that it created, None where it didn't."""
    remove(CREATED)
    done = subprocess.run([mulver] + words, stdout=subprocess.PIPE, stderr=subprocess.PIPE, env={**os.environ, **more})
    return done, [read(path) if os.path.exists(path) else None for path in CREATED]


def are_fronts(files, whole):
    """Each file is a front of the whole one, or isn't there, and the second is there only where the first is whole."""
    fronts = all(file is None or (all_ is not None and all_.startswith(file)) for file, all_ in zip(files, whole))
    return fronts and (files[1] is None or files[0] == whole[0])


def answer_cell(answer):
    """The status of an answer and the first two lines of its report."""
    status, report, _ = answer
    return "%d, `%s`" % (status, " / ".join(report.split("\n")[:-1][:2]))


def judge_runs(mulver, library, files, made, heads, runs, judge):
    """Judges each run on small files, in a table; tells what came otherwise, and ends with status 0 where that is nothing."""
    bad = []
    with scratch() as folder:
        for path, data in {**SMALL_FILES, **files, "shim.c": library}.items():
            write(path, data)
        shim = os.path.join(folder, "shim.so")
        subprocess.run(["cc", "-O1", "-w", "-shared", "-fPIC", "-o", shim, "shim.c", "-ldl"], check=True)
        for words in made:
            quiet([mulver] + words)
        write("broken", read("two").replace(b"\n24\n", b"\n0\n", 1))
        head(heads)
        for words in runs:
            if words[0] != "trial" or quiet([mulver] + words) != 2:
                bad += judge(mulver, shim, words)
    print("\n".join(bad) if bad else "nothing else came")
    sys.exit(1 if bad else 0)
