"""Runs a line program on every job of crates/replay/stdin and compares what it prints with crates/replay/stdout.

    python3 oracle/against.py PROGRAM [ARGUMENTS]

Prints each job that differs with its first differing line, then a count. The status is 0 only if none differs.
"""
import pathlib
import re
import subprocess
import sys


def jobs_and_answers(folder):
    jobs = (folder / "stdin").read_bytes().split(b"\x1e")
    assert jobs.pop() == b"", "a mark stands behind each job"
    parts = re.split(rb"^job=(\d+)\n", (folder / "stdout").read_bytes(), flags=re.MULTILINE)
    numbers, answers = parts[1::2], parts[2::2]
    assert [int(n) for n in numbers] == list(range(1, len(jobs) + 1)), "an answer for each job, in order"
    return list(zip(jobs, answers))


def first_difference(wanted, got):
    wanted, got = wanted.split(b"\n"), got.split(b"\n")
    at = next((i for i, (w, g) in enumerate(zip(wanted, got)) if w != g), min(len(wanted), len(got)))
    say = lambda lines: lines[at].decode(errors="replace") if at < len(lines) else "(nothing)"
    return f"wanted {say(wanted)!r}, got {say(got)!r}"


def main(program):
    pairs = jobs_and_answers(pathlib.Path(__file__).parent.parent / "crates" / "replay")
    differ = 0
    for number, (job, wanted) in enumerate(pairs, 1):
        got = subprocess.run(program, input=job, capture_output=True).stdout
        if got != wanted:
            differ += 1
            print(f"job {number}: {first_difference(wanted, got)}")
    print(f"{len(pairs) - differ} the same, {differ} differ")
    return 1 if differ else 0


if __name__ == "__main__":
    sys.exit(main(sys.argv[1:]))
