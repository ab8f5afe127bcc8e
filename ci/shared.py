"""What the checks share. A script that imports it runs in the repository's top folder. Their first line has -B, so that
Python keeps no folder __pycache__."""
import glob
import os
import pathlib
import re
import subprocess
import sys

os.chdir(pathlib.Path(__file__).resolve().parent.parent)


def read(path):
    return pathlib.Path(path).read_text("utf-8")


def files(*patterns):
    """The texts of the files that have the patterns, by path. Each pattern must have one."""
    paths = {pattern: sorted(glob.glob(pattern, recursive=True)) for pattern in patterns}
    for pattern in patterns:
        if not paths[pattern]:
            sys.exit(f"{sys.argv[0]}: there is no file {pattern}")
    return {path: read(path) for found in paths.values() for path in found}


def report(wrong, summary=""):
    """Prints each thing that is wrong, and the summary. Ends with the status 0 only if nothing is wrong."""
    for line in [*wrong, *[summary] * bool(summary)]:
        print(f"ci/{os.path.basename(sys.argv[0])}: {line}")
    sys.exit(bool(wrong))


def processes(gigabytes, spare=0):
    """How many processes run side by side: RT_JOBS says it, else one a processor, where each has so much memory and the
    spare one stays free. In a container the limit may be less than what is free."""
    free = [int(re.search(r"MemAvailable: *(\d+)", read("/proc/meminfo"))[1]) * 1024]
    limit = pathlib.Path("/sys/fs/cgroup/memory.max")
    if limit.exists() and limit.read_text().strip().isdigit():
        free.append(int(limit.read_text()))
    most = int((min(free) / 1e9 - spare) // gigabytes)
    return max(1, min(int(os.environ.get("RT_JOBS") or os.cpu_count()), most))


def is_of_allocations(crate, test):
    """Whether this is a test of allocations, which is of use only beside ci/refuse.c (ci/beside)."""
    return crate == "jzon_refusal_tests" or test.endswith(("_under_refusals", "_counted"))


def built(crate):
    """The path of this crate's program. If it isn't built yet, or if a source is newer, it is proved and built here."""
    path = f"crates/{crate}/out/{crate}"
    sources = glob.glob("crates/*/[sp]*/**/*.[ra]*t", recursive=True)
    if not os.path.exists(path) or os.path.getmtime(path) < max(map(os.path.getmtime, ["crates.txt", *sources])):
        with open(f"crates/{crate}/stdin", "rb") as text:
            how = {"stdin": text, "stdout": subprocess.DEVNULL, "stderr": subprocess.DEVNULL}
            if subprocess.run(["rt", "run"], cwd=f"crates/{crate}", **how).returncode:
                sys.exit(f"{sys.argv[0]}: crates/{crate} doesn't build")
    return os.path.realpath(path)
