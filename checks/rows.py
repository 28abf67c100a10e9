#!/usr/bin/env python3
"""Runs the program on the command lines of tests/rows, and compares what it writes, tells and answers, byte for byte.

    checks/rows.py [--program FILE] [ROW ..]     all rows, or those with these names

A row is a folder: args (a command line's words), stdin, stdout or stdout.sha256, stderr, status, and the files that args names.
The args may name a file of another row, as `../ROW/task.json`. What is not there is empty. All of standard error is compared, the
argument parser's own text and the notes below it too; the lines `settled N of M`, which workers tell in any order, are sorted first. The
peak memory of a run has to stay below MEGABYTES, or below what LARGER has for its row: no contract bounds how much memory a run takes.
Each run has a stack of STACK bytes, and no environment, which would take room there.
The last line is `N passed, M failed`.
"""
import concurrent.futures
import hashlib
import os
import signal
import subprocess
import sys

import common

ROWS = common.ROOT / "tests/rows"
SECONDS = 120
MEGABYTES = 24
# bytes of the stack that each run has, and each of its threads: docs/FORMAT.md says that these are enough
STACK = 128 << 10
# rows that may take more
LARGER = {
    "solve-one-process-256-values-account": 80, "views-agreement-4-3-r3": 64, "views-agreement-4-3-first-block-2-r4": 96,
    "preset-set-agreement-processes-4-k-1-values-7": 48, "solve-agreement-3-2-r1-w8-account": 40,
    "solve-agreement-3-2-r1-w2-account": 32, "solve-loop-hollow-r1-w2-progress": 32,
}
# Runs a program and writes its peak memory to a file that is open. A child's peak begins with its parent's, so this is a process of its
# own that has little.
MEASURE = """
import os, resource, sys
child = os.fork()
if not child:
    resource.setrlimit(resource.RLIMIT_STACK, (int(sys.argv[2]),) * 2)
    os.execve(sys.argv[3], sys.argv[3:], {})
_, status, used = os.wait4(child, 0)
os.write(int(sys.argv[1]), b"%d" % used.ru_maxrss)
os._exit(os.waitstatus_to_exitcode(status) & 255)
"""


def bytes_of(file):
    return file.read_bytes() if file.is_file() else b""


def told(errors):
    """What is compared of an error stream: all, with the lines of settled branches in order."""
    lines = errors.splitlines(keepends=True)
    settled = iter(sorted((it for it in lines if it.startswith(b"settled ")), key=lambda it: (len(it), it)))
    return b"".join(next(settled) if it.startswith(b"settled ") else it for it in lines)


def is_wanted(output, row):
    sum_file = row / "stdout.sha256"
    if sum_file.is_file():
        return hashlib.sha256(output).hexdigest() == sum_file.read_text().strip()
    return output == bytes_of(row / "stdout")


def run(words, given, folder):
    """Status, standard output, standard error and peak memory in megabytes of a run; None if it doesn't end."""
    peak, to = os.pipe()
    with open(peak, "rb") as told_peak:
        measure = [sys.executable, "-S", "-E", "-c", MEASURE, str(to), str(STACK), common.program(), *words]
        how = {"stdin": subprocess.PIPE, "stdout": subprocess.PIPE, "stderr": subprocess.PIPE, "cwd": folder}
        with subprocess.Popen(measure, pass_fds=[to], start_new_session=True, **how) as ran:
            os.close(to)
            try:
                out, errors = ran.communicate(given, timeout=SECONDS)
            except subprocess.TimeoutExpired:
                os.killpg(ran.pid, signal.SIGKILL)
                return None
        return ran.returncode, out, errors, int(told_peak.read() or 0) / 1024


def differences(row):
    """What a run of the row does otherwise than it is to."""
    words = (row / "args").read_text(errors="surrogateescape").split()
    ran = run(words, bytes_of(row / "stdin"), row)
    if ran is None:
        return [f"no end after {SECONDS} s"]
    status, output, errors, memory = ran
    found = []
    if not is_wanted(output, row):
        found.append(f"wrote {output[:200]!r}")
    if told(errors) != told(bytes_of(row / "stderr")):
        found.append(f"told {errors[:200]!r}")
    if status != int((row / "status").read_text()):
        found.append(f"answered {status}")
    if not 0 < memory <= LARGER.get(row.name, MEGABYTES):
        found.append(f"took {memory:.0f} MB, and {LARGER.get(row.name, MEGABYTES)} MB is the most")
    return found


def main():
    script = common.Script(__doc__).runs_program()
    script.add_argument("rows", nargs="*", metavar="ROW")
    asked = script.asked()
    rows = script.chosen(sorted(it for it in ROWS.iterdir() if it.is_dir()), asked.rows, lambda it: it.name)
    failed = 0
    with concurrent.futures.ThreadPoolExecutor() as pool:
        for row, found in zip(rows, pool.map(differences, rows)):
            if found:
                failed += 1
                print(f"{row.name}: {'; '.join(found)}")
    return common.ended(len(rows) - failed, failed)


if __name__ == "__main__":
    sys.exit(main())
