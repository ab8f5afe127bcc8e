"""What the benches share: options, texts that another process makes, runs of a program with their cost and peak memory,
tables, and the builds of our programs and of the Rust crate's."""
import argparse
import collections
import os
import pathlib
import re
import resource
import shutil
import subprocess
import sys
import tempfile
from statistics import geometric_mean, median_high, median_low

import texts

HERE = pathlib.Path(__file__).resolve().parent
TOP = HERE.parent
# The texts and the builds are kept here.
ROOM = pathlib.Path(tempfile.gettempdir(), "jzon-bench")
# A run that takes more processor time is ended, and its side left out.
SECONDS_MAX = 60
CALLGRIND = ["valgrind", "--tool=callgrind", "--callgrind-out-file=/dev/null"]
# Callgrind counts each byte that `rep movsb` copies or `rep stosb` fills as an instruction. With these thresholds glibc
# uses loops of 32 bytes or more instead.
NO_REP = ":".join(f"glibc.cpu.x86_rep_{name}_threshold={2 ** 63 - 1}" for name in ("movsb", "stosb"))


def options(doc, words, *flags, **numbers):
    """The options of bench/program and bench/library: these words, the flags, and the numbers with their defaults."""
    parser = argparse.ArgumentParser(description=doc, formatter_class=argparse.RawDescriptionHelpFormatter)
    parser.add_argument("words", nargs="*", metavar="WORD", choices=[[], *words], help=" ".join(words))
    parser.add_argument("--rust", metavar="CHECKOUT", help="a checkout of the Rust crate, built by cargo")
    for flag in ("growth", "instructions", *flags):
        parser.add_argument(f"--{flag}", action="store_true")
    for name, default in {"rounds": 7, "scale": 1.0, **numbers}.items():
        parser.add_argument(f"--{name}", type=type(default), default=default, metavar="N")
    return parser.parse_args()


class Run:
    """One run of a program: its status, what it printed on standard error, its processor time in seconds or its
    instructions, and its peak memory in kilobytes, which is None if it is below that of this process."""

    def __init__(self, words, source=os.devnull, target=os.devnull, counts=False, tunables=""):
        env = {**os.environ, "GLIBC_TUNABLES": tunables} if tunables else None
        with open(source, "rb") as given, open(target, "wb") as taken:
            child = subprocess.Popen(
                [*CALLGRIND * counts, *words], stdin=given, stdout=taken, stderr=subprocess.PIPE, env=env, text=True,
                errors="replace"
            )
        resource.prlimit(child.pid, resource.RLIMIT_CPU, (SECONDS_MAX * (20 if counts else 1),) * 2)
        with child.stderr:
            lines = child.stderr.read().splitlines()
        _, status, used = os.wait4(child.pid, 0)
        child.returncode = self.status = os.waitstatus_to_exitcode(status)
        self.said = "\n".join(line for line in lines if not line.startswith("=="))
        self.cost = used.ru_utime + used.ru_stime
        if counts and self.status == 0:
            self.cost = next(int(line.split()[-1].replace(",", "")) for line in lines if "Collected" in line)
        # A child's peak begins with what its parent had when it was started.
        own = resource.getrusage(resource.RUSAGE_SELF).ru_maxrss
        self.peak = used.ru_maxrss if used.ru_maxrss > own and not counts else None


def measured(sides, given, repeats=0):
    """Runs the sides, each a command and the path of its text, in turns. Returns a list of what one call costs on each
    side, a list of the peaks, and the set of what the sides printed on standard error. With `repeats`, the number of
    calls is the command's last word, and the cost of a run without calls is subtracted. The least cost of the rounds
    counts; instructions are counted once. A cost is None if the side failed or has no such call, or if its time is lost
    in that of a run without calls."""
    runs, costs, peaks, said = collections.defaultdict(list), [], [], set()
    # Whether a call copies a long block depends on the blocks that the calls before it freed.
    tunables = NO_REP if given.instructions and repeats else ""
    for number in range(1 if given.instructions else given.rounds):
        for at, (words, path) in sorted(enumerate(sides), reverse=number % 2 == 0):
            for calls in (repeats, 0) if repeats else (0,):
                run = Run([*words, *[str(calls)] * bool(repeats)], path, counts=given.instructions, tunables=tunables)
                runs[at, calls] += [run] * (run.status == 0)
    for at in range(len(sides)):
        full, empty = (min((run.cost for run in runs[at, calls]), default=0) for calls in (repeats, 0))
        cost = full - empty * bool(repeats) if empty else 0
        costs.append(cost / max(1, repeats) if cost > (0 if given.instructions else full / 50) else None)
        peaks.append(runs[at, repeats][-1].peak if runs[at, repeats] else None)
        said.update(run.said for run in runs[at, repeats])
    return costs, peaks, said


def make_text(size, name):
    """The path of a text. It is made in a process of its own if it isn't there yet, or is older than what makes it."""
    path = ROOM / str(size) / f"{name}.json"
    since = max((HERE / source).stat().st_mtime for source in ("texts.py", "small.txt"))
    if not path.exists() or path.stat().st_mtime < since:
        path.parent.mkdir(parents=True, exist_ok=True)
        subprocess.run([sys.executable, HERE / "texts.py", path.parent, str(size), name], check=True)
    return path


def growth(given, calls, repeats=0):
    """Calls on objects of n and of 2n hard keys: the title, the command, what follows in the texts' names, and whether
    keys may be repeated."""
    table = Table("Keys", "n", f"{'Instructions' if given.instructions else 'Seconds'} for n", "Longer at 2n")
    for kind, (name, count, _) in texts.KEY_KINDS.items():
        count = max(2, int(count * given.scale))
        for title, command, ending, allows_repeated in calls:
            if kind != "repeated-keys" or allows_repeated:
                sides = [(command, make_text(0, f"{kind}-{number}{ending}")) for number in (count, 2 * count)]
                [once, twice], *_ = measured(sides, given, repeats)
                table.row(title.format(name), f"{count:,}", figure(once, given), ratio_text(twice, once))


class Table:
    """A table of Markdown, of which each row is printed at once."""

    def __init__(self, *heads):
        self.widths = [max(len(head), 24 if at == 0 else 9) for at, head in enumerate(heads)]
        self.row(*heads)
        print("|" + "---|" * len(heads))

    def row(self, *cells):
        print("| " + " | ".join(map(str.ljust, cells, self.widths)) + " |", flush=True)


def median(ratios):
    """The one in the middle, or the geometric mean of the two there."""
    return geometric_mean([median_low(ratios), median_high(ratios)])


def slower(ratios):
    return f"{sum(ratio < 1 for ratio in ratios)} of {len(ratios)}"


def summary(ratios):
    """Lists of ratios side by side, by name."""
    if ratios:
        print()
        table = Table("All rows", *ratios)
        for title, of in (("geometric mean", geometric_mean), ("median", median), ("least", min)):
            table.row(title, *[f"{of(found):.2f}" for found in ratios.values()])
        table.row("below 1.00", *map(slower, ratios.values()))


def ratio_text(above, below):
    """A ratio, or a minus where one side has no figure."""
    return f"{above / below:.2f}" if above and below else "-"


def figure(cost, given):
    """A cost as text."""
    return "-" if cost is None else f"{cost:,.0f}" if given.instructions else f"{cost:,.{4 if cost < 1 else 2}f}"


def build(words, folder, program, status):
    """The path of the program that a command builds in a folder. The command ends with this status."""
    ran = subprocess.run(
        words, cwd=folder, stdin=subprocess.DEVNULL, stdout=subprocess.PIPE, stderr=subprocess.STDOUT, text=True
    )
    if ran.returncode != status or not os.access(program, os.X_OK):
        sys.exit(f"bench: '{' '.join(words)}' in {folder} doesn't build the program:\n{ran.stdout[-4000:]}")
    return program


def rattle_build(source, *deps, is_program=False):
    """Proves and builds this source, a program or the module `calls` of main.rt.in, in a copy of the crates. Without
    arguments and input the program ends with the status 1."""
    folder, crate = ROOM / source, ROOM / source / "crates/calls"
    shutil.rmtree(folder, ignore_errors=True)
    shutil.copytree(TOP / "crates", folder / "crates", ignore=shutil.ignore_patterns("out", "must-fail*"))
    (crate / "src").mkdir(parents=True)
    (folder / ".git").mkdir()
    shutil.copy(HERE / (source if is_program else "main.rt.in"), crate / "src/main.rt")
    if not is_program:
        shutil.copy(HERE / source, crate / "src/calls.rt")
    shutil.copy(TOP / "HANDLES", folder)
    listed = (TOP / "crates.txt").read_text("utf-8")
    (folder / "crates.txt").write_text(listed + f"calls: {' '.join(deps)}\n", "utf-8")
    # What bin/prove proved isn't proved again.
    libraries = [name for name in re.findall(r"^(\w+):", listed, re.M) if (TOP / f"crates/{name}/src/lib.rt").exists()]
    subprocess.run([TOP / "ci/libraries", TOP, folder, *libraries], capture_output=True)
    print(
        f"bench: proving and building {source}, which takes minutes where it or its library isn't proved yet",
        file=sys.stderr, flush=True
    )
    return build(["rt", "run"], crate, crate / "out/calls", 1)


def cargo_build(source, dependencies, kind=""):
    """Builds a program of Rust with these lines of dependencies. Crates of a registry are Debian's."""
    folder = ROOM / (source + kind)
    for part in ("src", ".cargo"):
        (folder / part).mkdir(parents=True, exist_ok=True)
    shutil.copy(HERE / source, folder / "src/main.rs")
    package = '[package]\nname = "beside"\nversion = "0.1.0"\nedition = "2021"\n'
    (folder / "Cargo.toml").write_text(f"{package}[dependencies]\n{dependencies}\n", "utf-8")
    (folder / ".cargo/config.toml").write_text(
        '[source.crates-io]\nreplace-with = "debian"\n[source.debian]\ndirectory = "/usr/share/cargo/registry"\n', "utf-8"
    )
    return build(["cargo", "build", "--release"], folder, folder / "target/release/beside", 0)


def rust_build(checkout, source):
    """Builds a program of Rust over a checkout of the crate `jzon`."""
    return cargo_build(source, f'jzon = {{ path = "{os.path.realpath(checkout)}" }}')


def serde_build(keeps_order):
    """Builds the program over Rust's serde_json, whose objects keep the order of entries or sort them."""
    features = ', features = ["preserve_order"]' * keeps_order
    lines = f'serde = "1"\nserde_json = {{ version = "1"{features} }}'
    return cargo_build("serde.rs", lines, "-ordered" * keeps_order)
