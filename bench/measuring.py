"""What the scripts of this folder share: the programs, their inputs, what a run takes, and how figures are told and kept."""
import collections
import datetime
import os
import pathlib
import platform
import re
import statistics
import subprocess
import time

ROOT = pathlib.Path(__file__).resolve().parent.parent
PROGRAM = ROOT / "crates/scalebricks/out/scalebricks"
BENCH = ROOT / "crates/bench/out/bench"
# What was printed, a file a round, whose name begins with its number.
ROUNDS = ROOT / "bench/rounds"
# For the processors that the proved program is built for.
RUSTC = ["rustc", "--edition", "2021", "-O", "-C", "target-cpu=x86-64-v2"]


def build():
    """Proves and builds the program where it is missing or stale."""
    rows = b"cluster,2,1\nbegin\nend\n"
    subprocess.run([ROOT / "scalebricks", "replay"], input=rows, stdout=subprocess.DEVNULL, check=True)


def build_bench():
    """Proves and builds the program `bench` where the one that stands, which the gate may have left, isn't of these sources."""
    script = """
        . .ci/built
        is_current && exit
        from=$(sources)
        (cd crates/bench && rt run) </dev/null >/dev/null && note_built_from "$from"
    """
    subprocess.run(["bash", "-c", script], cwd=ROOT, env={**os.environ, "of_crate": "bench"}, check=True)


def build_native(folder):
    """Builds the plain native program in the folder, and gives its path."""
    return build_plain(folder, "native")


def build_checker(folder):
    """Builds the checker of storms in the folder, and gives its path."""
    return build_plain(folder, "check_storm")


def build_threads(folder):
    """Builds what stands between a program and its threads, and gives its path."""
    return build_between(folder, "threads")


def build_memory(folder):
    """Builds what stands between a program and its memory, and gives its path."""
    return build_between(folder, "memory")


def build_between(folder, name):
    library = folder / f"{name}.so"
    subprocess.run(["cc", "-O2", "-shared", "-fPIC", ROOT / f"bench/{name}.c", "-o", library], check=True)
    return library


def build_plain(folder, name):
    program = folder / name
    subprocess.run([*RUSTC, ROOT / f"bench/{name}.rs", "-o", program], check=True)
    return program


def rows_of(*words):
    """The command that writes the rows of an input."""
    return [ROOT / "bench/make_input.py", *map(str, words)]


# Seconds from a run's start to its end, seconds of processor time, user's and system's, and peak resident octets.
Taken = collections.namedtuple("Taken", "elapsed processor peak")


def taken(words, rows, **environment):
    """What one run over the rows of a file takes."""
    with open(rows, "rb") as source:
        start = time.monotonic()
        child = subprocess.Popen(words, stdin=source, stdout=subprocess.DEVNULL, env={**os.environ, **environment})
        _, status, usage = os.wait4(child.pid, 0)
        elapsed = time.monotonic() - start
    child.returncode = os.waitstatus_to_exitcode(status)
    if child.returncode != 0:
        raise SystemExit(f"{words} ended with status {child.returncode}")
    return Taken(elapsed, usage.ru_utime + usage.ru_stime, usage.ru_maxrss * 1024)


def timed(words, rows):
    """Seconds of processor time and peak resident octets of one run over the rows of a file."""
    return taken(words, rows)[1:]


def said(*words):
    return subprocess.run(words, cwd=ROOT, stdout=subprocess.PIPE, check=True, text=True).stdout.strip()


def head(runs):
    """Where and of what the figures are: each line is a name and what it is."""
    changed = " and changes" if said("git", "status", "--porcelain") else ""
    processor = re.search(r"model name\s*: (.*)", pathlib.Path("/proc/cpuinfo").read_text())
    memory = re.search(r"MemTotal:\s*(\d+) kB", pathlib.Path("/proc/meminfo").read_text())
    load = pathlib.Path("/proc/loadavg").read_text().split()[0]
    print(f"date       {datetime.date.today().isoformat()}")
    print(f"commit     {said('git', 'rev-parse', '--short=12', 'HEAD')}{changed}")
    print(f"toolchain  {said('rt', 'version')}")
    print(f"processor  {processor[1] if processor else platform.machine()}, {len(os.sched_getaffinity(0))} of them")
    print(f"memory     {int(memory[1]) / 1e6:.0f} GB")
    print(f"runs       {runs} of each; {load} processes ran or waited when they began")
    print()


def line(name, values, unit, form="{:.3f}"):
    shown = [form.format(value) for value in (statistics.median(values), min(values), max(values))]
    print(f"{name:<34}{shown[0]:>12} {unit:<12}{shown[1]} to {shown[2]}", flush=True)


LINE = re.compile(r"(?m)^(.+?)\s{2,}([\d.]+)(?: (\S+(?: \S+)*))?\s{2,}([\d.]+) to ([\d.]+)$")
# A figure as `line` prints it, and the round that it is of.
Figure = collections.namedtuple("Figure", "median unit least most round")


def newest_figures():
    """Of each name the figure of the last round that has it."""
    figures = {}
    for file in sorted(ROUNDS.glob("*.md"), key=lambda file: int(file.name.split("-")[0])):
        for name, median, unit, least, most in LINE.findall(file.read_text()):
            figures[name] = Figure(float(median), unit, float(least), float(most), file)
    return figures
