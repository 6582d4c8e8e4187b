#!/usr/bin/env python3
"""Measures the program by kind and size, and prints a table in Markdown.

    bench/measure.py [--limit SECONDS] [--repeat N] [--cells N] [--program FILE]

It runs `./worddd`, which builds the program where need be, over ripple-carry adders that it makes itself and over the
multipliers that `gen` makes. A row has the least wall time of N runs, the nodes of the left side's diagram, and the most memory
that a run held. A run that takes longer than the limit is stopped, and larger ones of its kind are left out.
"""

import argparse
import os
import subprocess
import sys
import tempfile
import time
from pathlib import Path

TOP = Path(__file__).resolve().parent.parent
KINDS = ["evbdd", "star_bmd", "hdd", "k_star_bmd"]
ADDERS = [8, 16, 32, 64]
MULTIPLIERS = [2, 3, 4, 5, 6, 7, 8, 9, 10, 12, 16]


def adder_netlist(size):
    """A ripple-carry adder of two words of so many bits."""
    lines = [f"INPUT({word}{bit})" for bit in range(size) for word in "ab"]
    lines += [f"OUTPUT(s{bit})" for bit in range(size)] + [f"OUTPUT(c{size - 1})"]
    lines += ["s0 = XOR(a0, b0)", "c0 = AND(a0, b0)"]
    for bit in range(1, size):
        lines += [
            f"t{bit} = XOR(a{bit}, b{bit})",
            f"s{bit} = XOR(t{bit}, c{bit - 1})",
            f"d{bit} = AND(a{bit}, b{bit})",
            f"e{bit} = AND(t{bit}, c{bit - 1})",
            f"c{bit} = OR(d{bit}, e{bit})",
        ]
    return "\n".join(lines) + "\n"


def adder_specification(size):
    """That the sum's word is the sum of both words."""
    words = {word: [f"{word}{bit}" for bit in range(size)] for word in "abs"}
    words["s"].append(f"c{size - 1}")
    lines = [f"word {word} = {' '.join(nets)}" for word, nets in words.items()]
    return "\n".join(lines + ["check s == a + b"]) + "\n"


def run(words, limit):
    """Seconds, kibibytes and lines of a run, or None where it takes too long."""
    with tempfile.TemporaryFile() as out:
        start = time.monotonic()
        child = subprocess.Popen(words, stdout=out, stderr=subprocess.DEVNULL)
        while True:
            pid, _status, usage = os.wait4(child.pid, os.WNOHANG)
            seconds = time.monotonic() - start
            if pid:
                break
            if seconds > limit:
                child.kill()
                os.wait4(child.pid, 0)
                return None
            time.sleep(0.0005)
        out.seek(0)
        return seconds, usage.ru_maxrss, out.read().decode().splitlines()


def measured(words, limit, repeat):
    """The best of some runs, as cells of a row, and whether it ended."""
    runs = []
    for _ in range(repeat):
        answer = run(words, limit)
        if answer is None:
            return f"more than {limit:g} | | |", False
        runs.append(answer)
    seconds, memory, lines = min(runs, key=lambda one: one[0])
    verdict = lines[-1].split(" ", 2)[2]
    nodes = verdict.removeprefix("equal nodes ") if verdict.startswith("equal") else verdict
    return f"{seconds:.3f} | {nodes} | {memory / 1024:.0f} |", True


def rows_of(title, sizes, words_of, options):
    for kind in KINDS:
        for size in sizes:
            cells, ended = measured(words_of(kind, size), options.limit, options.repeat)
            print(f"| {title} | {kind} | {size} | {cells}", flush=True)
            if not ended:
                break


def main():
    parser = argparse.ArgumentParser(description="Measures the program by kind and size.")
    parser.add_argument("--limit", type=float, default=20)
    parser.add_argument("--repeat", type=int, default=3)
    parser.add_argument("--cells", type=int, default=262144)
    parser.add_argument("--program", default=str(TOP / "worddd"))
    options = parser.parse_args()
    if subprocess.run([options.program, "gen", "2"], stdout=subprocess.DEVNULL).returncode != 0:
        sys.exit("the program does not run")
    print("| circuit | kind | bits | seconds | nodes | MiB |")
    print("|---|---|---|---|---|---|")
    with tempfile.TemporaryDirectory() as folder:

        def command(word, kind):
            return [options.program, word, "--kind", kind, "--cells", str(options.cells)]

        def adder(kind, size):
            netlist, spec = f"{folder}/{size}.bench", f"{folder}/{size}.spec"
            Path(netlist).write_text(adder_netlist(size))
            Path(spec).write_text(adder_specification(size))
            return [*command("check", kind), netlist, spec]

        def multiplier(kind, size):
            return [*command("gen", kind), str(size)]

        rows_of("adder", ADDERS, adder, options)
        rows_of("multiplier", MULTIPLIERS, multiplier, options)


if __name__ == "__main__":
    main()
