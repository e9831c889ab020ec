#!/usr/bin/env python3
"""Runs `rt ci` at the top of a repository, in the current folder, so that it ends as soon as can be where processors outnumber the proofs.

    tools/side_by_side.py

Crates stand one on the other, so the longest chain of them decides. `rt ci` cuts a proof into jobs only where nothing else waits for a
processor, and a proof that has begun keeps the jobs that it began with. Here the proofs of the longest chain share all processors, and those
beside it take one job each, with less priority. All else is `rt ci`'s own, and what it passes it keeps for later runs.

Before a proof begins, a line `begins: CRATE` tells it.
"""
import concurrent.futures
import os
import sys
import threading

from edits.kit import RT

# A proof with this share of the longest chain behind it is of the chain: it would soon be what all wait for.
OF_THE_CHAIN = 0.6
# What a job beyond the first adds to the memory that a proof takes.
MEMORY_OF_A_JOB = 0.6
MOST_JOBS = 4
# The share of the free memory that proofs may take: some take a fifth more than is told of them.
SHARE_OF_MEMORY = 0.85
LESS_PRIORITY = 10


class Task:
    """A task of `rt ci`: what it waits for, its work in lines, the memory that it takes, and its call."""

    def __init__(self, key, waits, lines, memory, call):
        self.key, self.waits, self.lines, self.memory, self.call = key, waits, lines, memory, call
        # The lines of the longest chain that begins with it.
        self.chain = lines

    def memory_with(self, jobs):
        return self.memory * (1 + MEMORY_OF_A_JOB * (jobs - 1))


class Lanes:
    """The tasks that are left, those that run, and what each gave that has ended."""

    def __init__(self, tasks, processors, memory):
        self.processors, self.memory, self.given, self.running = processors, memory, {}, {}
        self.left = [Task(key, *parts) for key, parts in tasks.items()]
        named = {it.key: it for it in self.left}
        # (a task comes behind those that it waits for)
        for task in reversed(self.left):
            for key in task.waits:
                named[key].chain = max(named[key].chain, named[key].lines + task.chain)
        self.left.sort(key=lambda it: -it.chain)

    def is_of_chain(self, task):
        longest = max((it.chain for it in [*self.left, *(task for task, _ in self.running.values())]), default=0)
        return task.chain >= OF_THE_CHAIN * longest

    def jobs(self, task, ready):
        """How many jobs the task may take now: at least one where nothing else runs, and none where it has to wait."""
        of_chain = [it for it in ready if self.is_of_chain(it)]
        wanted = min(MOST_JOBS, self.processors // len(of_chain)) if task in of_chain else 1
        room = self.memory - sum(it.memory_with(jobs) for it, jobs in self.running.values())
        fitting = [it for it in range(1, max(1, wanted) + 1) if task.memory_with(it) <= room]
        has_lane = len(self.running) < self.processors
        return max(fitting, default=0 if self.running else 1) if has_lane else 0

    def begin(self):
        ready = [it for it in self.left if all(key in self.given for key in it.waits)]
        for task in ready:
            jobs = self.jobs(task, ready) if task.lines else 1
            if jobs:
                self.left.remove(task)
                self.running[self.begun(task, jobs)] = task, jobs

    def begun(self, task, jobs):
        """Runs a task in a thread of its own, whose priority all has that it starts."""
        future, has_less = concurrent.futures.Future(), not self.is_of_chain(task)

        def run():
            if has_less:
                os.setpriority(os.PRIO_PROCESS, threading.get_native_id(), LESS_PRIORITY)
            if task.lines and task.key[1] == "proof":
                # (at once, since other threads write too)
                os.write(sys.stdout.fileno(), f"begins: {task.key[0]}\n".encode())
            try:
                future.set_result(task.call(self.given, jobs))
            except BaseException as error:
                future.set_exception(error)

        threading.Thread(target=run, daemon=True).start()
        return future

    def run(self):
        while self.left or self.running:
            self.begin()
            done, _ = concurrent.futures.wait(self.running, return_when=concurrent.futures.FIRST_COMPLETED)
            for future in done:
                task, _ = self.running.pop(future)
                self.given[task.key] = future.result()
        return self.given


def main():
    if hasattr(RT, "in_lanes"):
        RT.in_lanes = lambda tasks: Lanes(tasks, RT.processors(), SHARE_OF_MEMORY * RT.free()).run()
    return RT.main(["ci", *sys.argv[1:]])


if __name__ == "__main__":
    sys.exit(main())
