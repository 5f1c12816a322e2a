#!/usr/bin/env python3
"""What the gate's time goes to, in processor seconds.

    tools/gatecost.py gate [WORD..]          runs `rt ci WORD..` at the top, and prints a row for each crate: its proof, its tests, its edits
    tools/gatecost.py functions CRATE..      proves the crates once more, function by function, and prints the dearest functions

What the gate kept from an earlier run costs nothing and has a row of zeros; `rt ci --anew` keeps nothing. Functions are proved on a copy, over what
`rt check` keeps of the crates below.
"""
import collections
import os
import re
import shutil
import subprocess
import sys
import tempfile
import time

TICKS = os.sysconf("SC_CLK_TCK")
KINDS = ("proof", "tests", "edits")


def provers():
    """Each running prover: its process, words, folder and processor seconds."""
    for process in filter(str.isdigit, os.listdir("/proc")):
        try:
            with open(f"/proc/{process}/cmdline") as it:
                words = it.read().split("\0")
            if not words[0].endswith("/rattle") or "--crate-name" not in words:
                continue
            with open(f"/proc/{process}/stat") as it:
                after_name = it.read().rsplit(")", 1)[1].split()
            yield process, words, os.readlink(f"/proc/{process}/cwd"), (int(after_name[11]) + int(after_name[12])) / TICKS
        except OSError:
            continue


def kind(words, folder):
    if "rt-edit" in folder or any("rt-edit" in word for word in words):
        return "edits"
    return "tests" if "--test" in words else "proof"


def gate(words):
    began = time.time()
    run = subprocess.Popen(["rt", "ci", *words])
    seen = {}
    while run.poll() is None:
        for process, told, folder, seconds in provers():
            crate = told[told.index("--crate-name") + 1]
            seen[process, crate, kind(told, folder)] = seconds
        time.sleep(0.5)
    cost = collections.Counter()
    runs = collections.Counter()
    for (_, crate, what), seconds in seen.items():
        cost[crate, what] += seconds
        runs[crate, what] += 1
    crates = sorted({crate for crate, _ in cost}, key=lambda crate: -sum(cost[crate, what] for what in KINDS))
    print("\n| crate | proof, s | tests, s | edits, s | edits tried | all, s |\n|---|---:|---:|---:|---:|---:|")
    for crate in crates:
        row = [cost[crate, what] for what in KINDS]
        print(f"| `{crate}` | {row[0]:.0f} | {row[1]:.0f} | {row[2]:.0f} | {runs[crate, 'edits']} | {sum(row):.0f} |")
    whole = [sum(cost[crate, what] for crate in crates) for what in KINDS]
    print(f"| all | {whole[0]:.0f} | {whole[1]:.0f} | {whole[2]:.0f} | {sum(runs[crate, 'edits'] for crate in crates)} | {sum(whole):.0f} |")
    print(f"\n{time.time() - began:.0f} s from begin to end, {os.cpu_count()} cores")
    return run.returncode


def spent(crate, folder):
    """The processor seconds of the provers of this crate that run in this folder."""
    return sum(seconds for _, words, where, seconds in provers() if words[words.index("--crate-name") + 1] == crate and where.startswith(folder))


def functions_of(crate, top):
    """Each function of the crate, with the processor seconds between the end of the proof before and the end of its own. The first one has those of
    the start, too, and is named so."""
    folder = f"{top}/crates/{crate}"
    shutil.rmtree(f"{folder}/out", ignore_errors=True)
    os.makedirs(f"{folder}/out/incremental")
    # so that the check does not begin with what another checkout kept of the same text
    root = next(it for it in (f"{folder}/src/lib.rt", f"{folder}/src/main.rt") if os.path.exists(it))
    with open(root, "a") as it:
        it.write(f"// measured at {time.time()}\n")
    at_once = {**os.environ, "PYTHONUNBUFFERED": "1"}
    run = subprocess.Popen(["rt", "check", "--progress", "--jobs", "1"], cwd=folder, env=at_once, stdout=subprocess.PIPE, stderr=subprocess.STDOUT, text=True)
    before = 0.0
    for line in run.stdout:
        found = re.match(r"checked (.*), \d+ of \d+", line)
        if found:
            now = max(spent(crate, folder), before)
            yield now - before, f"{crate}: {found.group(1)}" + ("" if before else ", and the start")
            before = now
    run.wait()


def functions(crates):
    with tempfile.TemporaryDirectory() as top:
        shutil.copytree("crates", f"{top}/crates")
        shutil.copy("crates.txt", top)
        rows = [row for crate in crates for row in functions_of(crate, top)]
    print("| function | s |\n|---|---:|")
    for seconds, name in sorted(rows, reverse=True)[:20]:
        print(f"| `{name}` | {seconds:.1f} |")
    return 0


def main():
    verbs = {"gate": gate, "functions": functions}
    if len(sys.argv) < 2 or sys.argv[1] not in verbs:
        sys.exit(__doc__)
    sys.exit(verbs[sys.argv[1]](sys.argv[2:]))


main()
