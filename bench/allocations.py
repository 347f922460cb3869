#!/usr/bin/env python3
"""Runs scripts on the built program with one request for memory refused, for each request in turn:

    bench/allocations.py PROGRAM [SCRIPT ..]

A SCRIPT is a file NAME.bidel with its replies beside it in NAME.replies; without any, some of examples/ are run. Each run
must end with 0 and all of the replies, or with 1 and a front of them. A line tells of each script how many requests there
were, and the status is 1 where a run ended otherwise. It needs `cc`, with which it makes the library that refuses.
"""

import os
import subprocess
import sys
import tempfile

TOP = os.path.dirname(os.path.dirname(os.path.abspath(__file__)))
SCRIPTS = ["examples/tasky", "examples/moving", "examples/conditions", "examples/there_and_back", "examples/merge",
           "examples/tutorial/22_watches"]

# Counts the requests for memory and refuses the one whose number REFUSED has. At the end the count goes to the file COUNTED.
REFUSING = r"""
#define _GNU_SOURCE
#include <dlfcn.h>
#include <errno.h>
#include <fcntl.h>
#include <stdlib.h>
#include <string.h>
#include <unistd.h>

static unsigned long count, refused;

static int is_refused(void) {
  int is = ++count == refused;
  if (is) errno = ENOMEM;
  return is;
}

__attribute__((constructor)) static void begin(void) {
  const char *word = getenv("REFUSED");
  count = 0;
  refused = word ? strtoul(word, 0, 10) : 0;
}

__attribute__((destructor)) static void end(void) {
  const char *name = getenv("COUNTED");
  char digits[24];
  int at = sizeof digits, file = name ? open(name, O_WRONLY | O_CREAT | O_TRUNC, 0600) : -1;
  if (file < 0) return;
  do digits[--at] = '0' + count % 10; while (count /= 10);
  if (write(file, digits + at, sizeof digits - at) < 0) _exit(125);
}

void *malloc(size_t size) {
  static void *(*own)(size_t);
  if (!own) own = (void *(*)(size_t))dlsym(RTLD_NEXT, "malloc");
  return is_refused() ? 0 : own(size);
}

void *realloc(void *old, size_t size) {
  static void *(*own)(void *, size_t);
  if (!own) own = (void *(*)(void *, size_t))dlsym(RTLD_NEXT, "realloc");
  return is_refused() ? 0 : own(old, size);
}

int posix_memalign(void **to, size_t align, size_t size) {
  static int (*own)(void **, size_t, size_t);
  if (!own) own = (int (*)(void **, size_t, size_t))dlsym(RTLD_NEXT, "posix_memalign");
  return is_refused() ? ENOMEM : own(to, align, size);
}

void *aligned_alloc(size_t align, size_t size) {
  static void *(*own)(size_t, size_t);
  if (!own) own = (void *(*)(size_t, size_t))dlsym(RTLD_NEXT, "aligned_alloc");
  return is_refused() ? 0 : own(align, size);
}
"""


def library_in(folder):
    """Makes the library that refuses, and gives its name."""
    source, made = f"{folder}/refusing.c", f"{folder}/refusing.so"
    with open(source, "w", encoding="utf-8") as it:
        it.write(REFUSING)
    subprocess.run(["cc", "-O2", "-shared", "-fPIC", "-o", made, source, "-ldl"], check=True)
    return made


def ran(program, script, library, refused, counted):
    """The status and the replies of a run in which the request of this number is refused; none is 0."""
    env = {**os.environ, "LD_PRELOAD": library, "REFUSED": str(refused), "COUNTED": counted}
    with open(script, "rb") as it:
        run = subprocess.run([program], stdin=it, stdout=subprocess.PIPE, stderr=subprocess.PIPE, env=env, timeout=60)
    return run.returncode, run.stdout


def fault_of(status, out, replies):
    """Why a run in which a request was refused isn't right; None where it is."""
    if status == 0:
        return None if out == replies else "it ended with 0, and other replies"
    if status != 1:
        return f"it ended with {status}"
    return None if replies.startswith(out) else "it ended with 1, and what it wrote is no front of the replies"


def try_script(program, name, library, folder):
    """Runs a script with each request refused in turn, and tells how many runs were wrong."""
    counted = f"{folder}/counted"
    with open(f"{name}.replies", "rb") as it:
        replies = it.read()
    status, out = ran(program, f"{name}.bidel", library, 0, counted)
    if (status, out) != (0, replies):
        print(f"{name}: its run ends with {status}, or other replies, when no request is refused")
        return 1
    with open(counted, encoding="ascii") as it:
        requests = int(it.read())
    wrong, ended = 0, 0
    for refused in range(1, requests + 1):
        status, out = ran(program, f"{name}.bidel", library, refused, counted)
        fault = fault_of(status, out, replies)
        ended += status == 1
        if fault:
            wrong += 1
            print(f"{name}: request {refused} refused: {fault}")
    print(f"{name}: {requests} requests, {ended} runs ended with 1, {wrong} wrong")
    return wrong + (requests == 0)


def main():
    if len(sys.argv) < 2:
        sys.exit(__doc__)
    program = os.path.abspath(sys.argv[1])
    names = [it.removesuffix(".bidel") for it in sys.argv[2:]] or [f"{TOP}/{it}" for it in SCRIPTS]
    with tempfile.TemporaryDirectory(prefix="allocations-") as folder:
        library = library_in(folder)
        wrong = sum([try_script(program, it, library, folder) for it in names])
    sys.exit(1 if wrong else 0)


if __name__ == "__main__":
    main()
