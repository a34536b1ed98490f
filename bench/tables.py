"""Builds and times the programs of bench/tables: see tables.sh."""

import os
import re
import shutil
import subprocess
import sys
import tempfile

HERE = os.path.dirname(os.path.abspath(__file__))
TOP = os.path.dirname(HERE)

# The measuring programs, and the crates that each uses.
PROGRAMS = {"rows": ["share_rows"], "index": ["memory", "share_index", "simplex_order"]}


def dependencies():
    """What each crate of the repository lists."""
    found = {}
    for line in open(os.path.join(TOP, "crates.txt")):
        match = re.match(r"([a-z0-9_]+):(.*)", line)
        if match:
            found[match[1]] = match[2].split()
    return found


def below(names, lists):
    """The crates of the repository that these stand on, themselves among them."""
    found = set()
    waiting = list(names)
    while waiting:
        name = waiting.pop()
        if name in lists and name not in found:
            found.add(name)
            waiting += lists[name]
    return found


def built(name, uses, folder):
    """The proved program, built as a crate of its own in a folder outside the repository."""
    lists = dependencies()
    crates = below(uses, lists)
    for crate in crates:
        shutil.copytree(
            os.path.join(TOP, "crates", crate),
            os.path.join(folder, "crates", crate),
            ignore=shutil.ignore_patterns("out", "must-fail"),
        )
    source = os.path.join(folder, "crates", f"measure_{name}", "src")
    os.makedirs(source)
    shutil.copy(os.path.join(HERE, "tables", f"{name}.program"), os.path.join(source, "main.rt"))
    with open(os.path.join(folder, "crates.txt"), "w") as out:
        for crate in crates:
            out.write(f"{crate}: {' '.join(lists[crate])}\n")
        out.write(f"measure_{name}: {' '.join(uses)}\n")
    done = subprocess.run(["rt", "run"], cwd=os.path.dirname(source), stdout=subprocess.PIPE, stderr=subprocess.STDOUT)
    program = os.path.join(os.path.dirname(source), "out", f"measure_{name}")
    if done.returncode != 0 or not os.path.exists(program):
        sys.exit(done.stdout.decode()[-4000:] + "\nthe measuring program was not built")
    return program


def twin(name, folder):
    """The twin, as rustc builds it with -O, where there is one."""
    if not os.path.exists(os.path.join(HERE, "tables", f"{name}.rs")):
        return None
    program = os.path.join(folder, f"twin_{name}")
    subprocess.run(["rustc", "-O", "-o", program, os.path.join(HERE, "tables", f"{name}.rs")], check=True)
    return program


def best(program, runs):
    """The least time of each line of the output."""
    times = {}
    for _ in range(runs):
        done = subprocess.run([program], stdout=subprocess.PIPE, check=True)
        for line in done.stdout.decode().splitlines():
            if not line.startswith("#"):
                name, every, nanoseconds = line.split()
                key = (name, int(every))
                times[key] = min(times.get(key, float("inf")), float(nanoseconds))
    return times


def taken_out(times):
    """The times of the program's own lines that begin with plain, by the name that follows."""
    names = [key for key in times if key[0].startswith("plain_")]
    return {(key[0].removeprefix("plain_"), key[1]): times.pop(key) for key in names}


def main(runs):
    for name, uses in PROGRAMS.items():
        with tempfile.TemporaryDirectory() as folder:
            shared = best(built(name, uses, folder), runs)
            other = twin(name, folder)
            plain = best(other, runs) if other else taken_out(shared)
        print(f"{name}: nanoseconds a step, best of {runs} runs")
        print(f"{'':24} {'shared every':>12} {'this':>10} {'plain':>10} {'ratio':>7}")
        for (what, every), time in shared.items():
            other = plain.get((what, every))
            after = str(every) if every else "never"
            beside = f"{other:10.2f} {time / other:7.2f}" if other else ""
            print(f"{what:24} {after:>12} {time:10.2f} {beside}")


if __name__ == "__main__":
    main(int(sys.argv[1]))
