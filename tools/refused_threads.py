#!/usr/bin/env python3
"""Runs the server with one thread refused, for each thread that it makes.

    tools/refused_threads.py [PROGRAM]

It must end by itself as it does where memory is refused, and write nothing. A small library in front of the C library's refuses the thread
with the number that it is told.
"""
import sys

import rows
import runs

# The writer's, and those of the workers.
THREADS = 5
NO_REQUEST = b"Content-Length: 2\r\n\r\n{}"

LIBRARY = r"""
extern char *getenv(const char *name);
extern void *dlsym(void *handle, const char *name);

static int made;

int pthread_create(void *thread, const void *attributes, void *(*start)(void *), void *argument) {
  const char *refused = getenv("REFUSED_THREAD");
  int (*create)(void *, const void *, void *(*)(void *), void *) = dlsym((void *)-1, "pthread_create");
  made++;
  if (refused && *refused - '0' == made) return 11;
  return create(thread, attributes, start, argument);
}
"""


def outcome(program, made, number):
    """The status, the standard error and the output of a run in which this thread is refused."""
    status, said, wrote = runs.outcome(program, NO_REQUEST, env=rows.in_front(made, refused_thread=number))
    return status, said, len(wrote)


def cases(program):
    """What was tried, how the program ended, and how it must end: the last run is one in which no thread is refused."""
    with rows.library(LIBRARY) as made:
        for number in range(1, THREADS + 1):
            yield f"thread {number} refused", outcome(program, made, number), (6, b"out of memory\n", 0)
        yield "no thread refused", outcome(program, made, THREADS + 1), (1, b"", 101)


def main(words):
    return rows.report(cases(*words or [rows.SERVER]))


if __name__ == "__main__":
    sys.exit(main(sys.argv[1:]))
