"""instructions.py BENCH: the library's instructions over the baseline's, counted by callgrind, which counts the same whatever else runs."""

import re
import subprocess
import sys

JOBS = ("check", "plain", "ball", "admit", "pack", "unpack", "doubles", "text", "explain", "dec.out", "dec.in")
FORMULAS = ("dot product of 8", "polynomial of degree 15", "mix of 512", "coefficients, degree 21", "reciprocals, 8 quotients")
WORKLOADS = (*FORMULAS, "hours, 1 decimal", "hours, 4 decimals", "most digits")
OF_FORMULAS = JOBS[:9]
BASELINE, LIBRARY = 0, 1
RUNS = 100
WITHOUT_TEXT = ("reciprocals, 8 quotients",)


def total(bench, *words):
    count = ["valgrind", "--tool=callgrind", "--callgrind-out-file=/dev/null", bench, "count", *map(str, words)]
    told = subprocess.run(count, check=True, capture_output=True, text=True).stderr
    return int(re.search(r"Collected : (\d+)", told)[1])


def instructions(bench, workload, side, job):
    """Of one run: what is counted with the runs, less what is counted without."""
    return (total(bench, workload, side, job, RUNS) - total(bench, workload, side, job, 0)) / RUNS


def ratio(bench, name, job):
    if job == "text" and name in WITHOUT_TEXT:
        return "-"
    numbers = [instructions(bench, WORKLOADS.index(name), side, JOBS.index(job)) for side in (LIBRARY, BASELINE)]
    return f"{numbers[0] / numbers[1]:.2f}"


def table(bench, names, jobs):
    print(f"{'instructions':<24}" + "".join(f"{job:>8}" for job in jobs))
    for name in names:
        print(f"{name:<24}" + "".join(f"{ratio(bench, name, job):>8}" for job in jobs))


def main(bench):
    table(bench, FORMULAS, OF_FORMULAS)
    table(bench, WORKLOADS[len(FORMULAS) :], JOBS[len(OF_FORMULAS) :])


if __name__ == "__main__":
    main(sys.argv[1])
