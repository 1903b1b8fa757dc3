"""The steps of a batch as arrays of jobs of Slurm, and what Slurm says of them."""
import os
import re
import shutil
import subprocess

from tools.batching import LIST, MACHINE_LOG, found_tool
from tools.foreign import content, put
from tools.tool import Refused

JOBS = "slurm_jobs.txt"
JOB = re.compile(r"([0-9]{1,18})(?: ([0-9]{1,9}))?\Z")
# The jobs of one array at most, below what Slurm's default allows.
MOST_JOBS = 1000
# A job of an array: the step that its number says. What it and Slurm say stands beside the texts.
SCRIPT = """#!/bin/sh
name=$(sed -n "$((SLURM_ARRAY_TASK_ID + %d))p" steps.txt)
mv -f "slurm_${SLURM_ARRAY_JOB_ID}_${SLURM_ARRAY_TASK_ID}.txt" "$name/log.txt"
exec ./step "$name"
"""
# Slurm's states of a job that hasn't done its step, and what the table says of them.
STATES = {"PENDING": "pending", "CONFIGURING": "pending", "REQUEUED": "pending", "RUNNING": "running",
          "COMPLETING": "running", "SUSPENDED": "running", "TIMEOUT": "time out", "CANCELLED": "cancelled",
          "FAILED": "failed", "OUT_OF_MEMORY": "failed: out of memory", "NODE_FAIL": "failed: the node",
          "BOOT_FAIL": "failed: the node", "PREEMPTED": "cancelled", "DEADLINE": "time out"}
# What a log says at the end where Slurm knows the job no more.
LOGGED = ((b"DUE TO TIME LIMIT", "time out"), (b"CANCELLED AT", "cancelled"), (b"oom", "failed: out of memory"))


class Waiting:
    """Nothing to wait for: whether jobs are underway that nobody waits for."""

    def __init__(self, is_underway):
        self.is_underway = is_underway

    def is_running(self):
        return False

    def stop(self):
        pass


class Jobs:
    """Jobs of Slurm that are waited for."""

    is_underway = False

    def __init__(self, into, is_kept=True):
        self.into, self.is_kept = into, is_kept

    def is_running(self):
        return bool(still_there(self.into))

    def stop(self):
        """Jobs that are kept go on: who comes back finds what they did."""
        if not self.is_kept:
            cancel(self.into)


def jobs_of(into):
    """The jobs of the last call by their numbers, each with the place of its first step among those of the list."""
    lines = map(JOB.match, content(os.path.join(into, JOBS)).decode(errors="replace").split("\n"))
    return {found[1]: int(found[2] or 0) for found in lines if found}


def still_there(into):
    """The jobs of an earlier call that haven't ended."""
    jobs = jobs_of(into)
    if not jobs or shutil.which("squeue") is None:
        return []
    came = subprocess.run(["squeue", "--noheader", "--format", "%F", "--jobs", ",".join(jobs)], capture_output=True)
    left = set(came.stdout.decode().split())
    return [job for job in jobs if job in left] if came.returncode == 0 else []


def cancel(into):
    """Ends the jobs of the last call that haven't ended."""
    left = still_there(into)
    if left and shutil.which("scancel") is not None:
        subprocess.run(["scancel", *left], capture_output=True)


def told_by(words):
    """What a program of Slurm says of jobs of arrays: number, place and state; nothing where it can't."""
    if shutil.which(words[0]) is None:
        return []
    came = subprocess.run(words, capture_output=True)
    if came.returncode:
        return []
    found = (re.match(r"([0-9]+)[_| ]([0-9]+)[| ]([A-Z_]+)", line) for line in came.stdout.decode().split("\n"))
    return [line.groups() for line in found if line]


def states(into):
    """What Slurm says of the steps of the last call, by their names: its queue knows those of some minutes, its
    accounts all, where it keeps some."""
    jobs, names = jobs_of(into), content(os.path.join(into, LIST)).decode(errors="replace").split("\n")[:-1]
    if not jobs:
        return {}
    told, found = ",".join(jobs), {}
    for number, place, state in (
            told_by(["sacct", "--noheader", "--parsable2", "--allocations", "--format", "JobID,State", "--jobs", told])
            + told_by(["squeue", "--noheader", "--array", "--states", "all", "--format", "%F|%K|%T", "--jobs", told])):
        at = jobs.get(number, len(names)) + int(place) - 1
        if at < len(names) and state in STATES:
            found[names[at]] = STATES[state]
    return found


def note_states(steps, into):
    """Notes the states of the steps that aren't done; those that ended are known by their logs, too."""
    found = states(into)
    for step in steps:
        if step.outcome is None:
            log = step.content(MACHINE_LOG)
            logged = next((state for words, state in LOGGED if words in log), step.state)
            step.state = found.get(step.name, logged)


def slurm(into, names, given, is_kept=True):
    """Arrays of jobs, one for each step, in a folder that all nodes see; answers the engine and notes. Jobs that aren't
    kept end where it is stopped."""
    found_tool("sbatch", "slurm-client")
    left = still_there(into)
    if left:
        return Jobs(into, is_kept) if given.wait else Waiting(True), [
            "job %s of an earlier call hasn't ended; none is started" % ", ".join(left)]
    put(os.path.join(into, LIST), "".join(name + "\n" for name in names).encode())
    jobs = []
    for first in range(0, len(names), MOST_JOBS):
        count = min(MOST_JOBS, len(names) - first)
        script = os.path.join(into, "job_%d.sh" % first)
        put(script, (SCRIPT % first).encode())
        limit = "%%%d" % given.jobs if given.jobs else ""
        words = ["sbatch", "--parsable", "--job-name", "vrptw", "--array", "1-%d%s" % (count, limit),
                 "--output", "slurm_%A_%a.txt", *given.slurm_options, os.path.basename(script)]
        came = subprocess.run(words, cwd=into, capture_output=True)
        if came.returncode:
            raise Refused("sbatch: %s" % came.stderr.decode(errors="replace").strip())
        jobs.append((came.stdout.decode().strip().split(";")[0], first))
        put(os.path.join(into, JOBS), "".join("%s %d\n" % job for job in jobs).encode())
    if given.wait:
        return Jobs(into, is_kept), []
    return Waiting(True), ["job %s is started; --status, or the same words again, show the table" % ", ".join(
        job for job, _ in jobs)]
