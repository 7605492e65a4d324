"""Instruction counts, which repeat, unlike times. COUNT says how they are taken (bench/settings.sh): by callgrind, or by
icount.c under qemu-user, which counts x86-64 programs on any processor, and so nothing of the Rust."""
import glob
import os
import re
import subprocess
import sys

ALONE = os.environ["COUNT"] == "icount"  # instructions alone, no times
printed = {}  # what drive printed, by workload and strategies


def run(command, stdin):
    got = subprocess.run(command, stdin=stdin, capture_output=True)
    if got.returncode != 0:
        sys.exit(f"{' '.join(command)}\n{got.stderr.decode()}")
    return got


def callgrind(command, *options, stdin=None):
    got = run(["valgrind", "--tool=callgrind", "--callgrind-out-file=/dev/null", *options, *command], stdin)
    return int(re.search(rb"Collected : (\d+)", got.stderr)[1]), got.stdout


def icount(out, command, stdin):
    """An x86-64 program, started with the kit's C library. This picks its loops by the processor it finds: Haswell is the
    one that callgrind shows."""
    lib = os.environ["KIT"] + "/lib"
    got = run([os.environ["QEMU"], "-cpu", "Haswell", "-plugin", f"{out}/icount.so",
               f"{lib}/ld-linux-x86-64.so.2", "--library-path", lib, *command], stdin)
    return int(re.search(rb"^instructions (\d+)$", got.stderr, re.M)[1]), got.stdout


def drive(out, name, workload, *how):
    """A pair, by drive.c; every side has to print the same."""
    path = f"{out}/{workload}.in"
    with open(path, "wb") as f:
        subprocess.run([f"{out}/bench", "frames", workload, *how], stdout=f, check=True)
    with open(path, "rb") as f:
        total, line = icount(out, [f"{out}/drive", name], f)
    if printed.setdefault((workload, how), line) != line:
        sys.exit(f"{workload}: {name} differs: {printed[workload, how]} {line}")
    return total / int(line.split()[0])


def positions(workload):
    """Counted positions a pair, once drive was run on it."""
    pairs, _, overlapping = printed[workload, ()].split()[:3]
    return int(overlapping) / int(pairs)


def side(out, name, workload, *how):
    """A pair (W6: a record), inside of the timed part alone; `how` is both strategies, as 11, if not 00."""
    if ALONE:
        return None if name == "rust" else drive(out, name, workload, *how)
    total, items = callgrind([f"{out}/bench", "one", name, workload, *how], "--toggle-collect=timed_*")
    return total / int(items)


def whole(out, path, name):
    """A whole run of a program on the file of this name."""
    with open(name, "rb") as f:
        return (icount(out, [path], f) if ALONE else callgrind([path], stdin=f))[0]


def program(out, path, records):
    """A record: whole runs of a program on the groups of this size, less a run on no records."""
    files = glob.glob(f"{out}/w6-{records}-*.in")
    return (sum(whole(out, path, name) for name in files) / len(files) - whole(out, path, f"{out}/empty.in")) / records
