"""The script of an array of jobs for tools/ask: each job asks a share of a question's branches, on a cluster with one of these engines."""
from __future__ import annotations

import json
import math
import pathlib
import re
import shlex
from typing import List

from .asked import Words
from .runs import Refused

# how many jobs there are where --jobs doesn't say: a job costs an engine seconds, and Slurm refuses arrays above 1,001 if it isn't told
JOBS = 16
# beside the branches, a job looks for an obstruction, and has a map accepted that is noted; and it begins and ends
OTHERS, BEGIN = 2, 60
# of memory in GB, beside what the one process has that a job runs at a time: the script itself
SCRIPT = 1
# what a path may have that stands in a line for an engine
PLAIN = re.compile(r"[\w./+@=-]+", re.A)


class Job:
    """What the script of each engine says: the command, how many jobs there are, and what each of them takes."""

    def __init__(self, words: Words, solver: str, count: int) -> None:
        self.count = min(count, words.jobs or JOBS)
        self.name = re.sub("[^a-z0-9]+", "-", f"ask-{words.task.stem}-{words.rounds[0]}".lower())[:50].strip("-")
        self.folder, self.keep = pathlib.Path.cwd(), words.keep.resolve()
        self.command = self.words_of(words, solver)
        self.seconds = math.ceil((math.ceil(count / self.count) + OTHERS) * words.seconds + BEGIN)
        self.memory = math.ceil(words.memory + SCRIPT)

    def words_of(self, words: Words, solver: str) -> str:
        """The command, with all that was said or found here: its solver by its path, its limits, and no --jobs, since a job asks one by one."""
        command = [*words.command, words.given.file.resolve(), words.rounds[0], "--keep", self.keep]
        command += [f"--seconds={words.seconds:g}", f"--memory={words.memory:g}", f"--disk={words.disk:g}", f"--clauses={words.clauses}"]
        command += ["--solver", solver, *["--no-obstruction"] * words.no_obstruction]
        return shlex.join(map(str, command))

    def clock(self) -> str:
        """The time of a job as hours, minutes and seconds."""
        minutes, seconds = divmod(self.seconds, 60)
        return f"{minutes // 60}:{minutes % 60:02}:{seconds:02}"

    def told(self, name: str) -> str:
        """Where a job's words go, by what an engine calls it."""
        return f"{self.keep}/job-{name}.out"

    def share(self, number: str) -> str:
        """The line that asks a share of the branches."""
        return f'exec {self.command} --share "{number}/{self.count}"'

    def script(self, mark: str, lines: List[str], number: str) -> str:
        """A script of the shell, with lines for an engine."""
        if not PLAIN.fullmatch(str(self.keep)):
            raise Refused(f"{self.keep} stands in a line for the engine, where it may have letters, digits and ./+@=-_ alone")
        return "\n".join(["#!/bin/sh", *(f"{mark} {it}" for it in lines), f"cd {shlex.quote(str(self.folder))} || exit 2", self.share(number)])


def slurm(job: Job) -> str:
    """An array numbers its jobs from 0."""
    return job.script("#SBATCH", [
        f"--job-name={job.name}", f"--array=0-{job.count - 1}%{job.count}", "--ntasks=1", "--cpus-per-task=1",
        f"--time={job.clock()}", f"--mem={job.memory}G", f"--output={job.told('%A-%a')}"], "$SLURM_ARRAY_TASK_ID")


def pbs(job: Job) -> str:
    """An array has two jobs or more."""
    lines = [f"-N {job.name[:15]}", f"-l select=1:ncpus=1:mem={job.memory}gb", f"-l walltime={job.clock()}", "-j oe"]
    if job.count == 1:
        return job.script("#PBS", [*lines, f"-o {job.told('0')}"], "0")
    array = [f"-J 0-{job.count - 1}%{job.count}", f"-o {job.told('^array_index^')}"]
    return job.script("#PBS", [*lines, *array], "$PBS_ARRAY_INDEX")


def sge(job: Job) -> str:
    """Jobs are numbered from 1."""
    return job.script("#$", [
        f"-N {job.name}", f"-t 1-{job.count}", f"-tc {job.count}", f"-l h_rt={job.clock()}", f"-l h_vmem={job.memory}G",
        "-S /bin/sh", "-j y", f"-o {job.told('$JOB_ID-$TASK_ID')}"], "$((SGE_TASK_ID - 1))")


def lsf(job: Job) -> str:
    """Jobs are numbered from 1, and have minutes."""
    return job.script("#BSUB", [
        f'-J "{job.name}[1-{job.count}]%{job.count}"', "-n 1", f"-W {math.ceil(job.seconds / 60)}",
        f'-M {job.memory}GB', f'-R "rusage[mem={job.memory}GB]"', f"-o {job.told('%J-%I')}"], "$((LSB_JOBINDEX - 1))")


def kubernetes(job: Job) -> str:
    """An indexed Job. The image has the repository, the solver and the task at their paths, and the claim of a volume the folder."""
    quoted, volume = json.dumps, {"name": "keep", "mountPath": str(job.keep)}
    return "\n".join([
        "apiVersion: batch/v1", "kind: Job", f"metadata: {{name: {quoted(job.name)}}}", "spec:", "  completionMode: Indexed",
        f"  completions: {job.count}", f"  parallelism: {job.count}", f"  backoffLimit: {job.count}", "  template:", "    spec:",
        "      restartPolicy: Never", "      containers:", "      - name: ask", "        image: IMAGE",
        f'        command: ["/bin/sh", "-c", {quoted(job.share("$JOB_COMPLETION_INDEX"))}]', f"        workingDir: {quoted(str(job.folder))}",
        f"        resources: {{requests: {{cpu: 1, memory: {job.memory}Gi}}, limits: {{memory: {job.memory}Gi}}}}",
        f"        volumeMounts: [{quoted(volume)}]", f"      activeDeadlineSeconds: {job.seconds}",
        "      volumes:", "      - name: keep", "        persistentVolumeClaim: {claimName: CLAIM}"])


SYSTEMS = {it.__name__: it for it in (slurm, pbs, sge, lsf, kubernetes)}


def array(words: Words, solver: str, count: int) -> str:
    """The script for the batch system that was named."""
    return SYSTEMS[words.array](Job(words, solver, count))
