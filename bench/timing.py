#!/usr/bin/env python3
"""Times a command: the least of some runs, its peak memory, and whether it ended in the time and memory that it may have.

A command is run by this file as a program of its own (`timing.py REPORT SECONDS MEGABYTES COMMAND ...`), since the system counts
as the memory of a process also what the process that started it holds, and whoever makes the inputs holds them. So less than the 12 MB or so
of this program never shows.
"""
import dataclasses
import json
import os
import pathlib
import resource
import signal
import subprocess
import sys
import tempfile
import time


@dataclasses.dataclass
class Run:
    """What a command took: by the clock and of the processor, in seconds; its peak in MB; its exit code, None where it was cut off."""
    seconds: float
    processor: float
    megabytes: float
    code: int | None

    def time(self, by_processor):
        return self.processor if by_processor else self.seconds


def measure(command, folder, stdin=None, stdout=None, stderr=None, seconds=0, megabytes=0):
    """One run of a command in a folder, with bounds on its processor time and its memory; 0 is none."""
    with tempfile.NamedTemporaryFile(suffix=".json") as report:
        helper = [sys.executable, "-I", __file__, report.name, str(seconds), str(megabytes), *map(str, command)]
        with (open(folder / stdin if stdin else os.devnull, "rb") as source,
              open(folder / stdout if stdout else os.devnull, "wb") as sink,
              open(folder / stderr if stderr else os.devnull, "wb") as log):
            subprocess.run(helper, cwd=folder, stdin=source, stdout=sink, stderr=log, check=True)
        return Run(**json.loads(pathlib.Path(report.name).read_text()))


def best(times, command, folder, by_processor=False, **how):
    """The run of the least time; a command that fails ends the program."""
    runs = []
    for _ in range(times):
        run = measure(command, folder, stderr="best.log", **how)
        if run.code:
            log = (folder / "best.log").read_text(errors="replace")
            sys.exit(f"{' '.join(map(str, command))}: ended with {run.code}: {log[:300]}")
        runs.append(run)
    return min(runs, key=lambda run: run.time(by_processor))


def bounded(seconds, megabytes):
    """What a child does first, so that it gets no more processor time and memory than it may have."""
    if seconds:
        resource.setrlimit(resource.RLIMIT_CPU, (seconds, seconds + 1))
    if megabytes:
        resource.setrlimit(resource.RLIMIT_AS, (megabytes * 1_000_000,) * 2)


def run_here(report, seconds, megabytes, command):
    """Runs the command with the streams of this process, and writes the report."""
    start = time.perf_counter()
    code = subprocess.Popen(command, preexec_fn=lambda: bounded(seconds, megabytes)).wait()
    took = time.perf_counter() - start
    used = resource.getrusage(resource.RUSAGE_CHILDREN)
    cut_off = code in (-signal.SIGXCPU, -signal.SIGKILL)
    run = Run(took, used.ru_utime + used.ru_stime, used.ru_maxrss * 1024 / 1e6, None if cut_off else code)
    pathlib.Path(report).write_text(json.dumps(dataclasses.asdict(run)))


if __name__ == "__main__":
    run_here(sys.argv[1], int(sys.argv[2]), int(sys.argv[3]), sys.argv[4:])
