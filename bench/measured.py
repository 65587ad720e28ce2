"""What the scripts beside it measure with: time, instructions and allocations of a call, and the program written by hand."""

import glob
import hashlib
import os
import re
import shutil
import subprocess
import sys
import tempfile
import time

HERE = os.path.dirname(os.path.abspath(__file__))
TYPES = os.path.join(HERE, 'types', 'dsdl')
COMPACT = os.path.join(HERE, 'types', 'compact')
BY_HAND = os.path.join(HERE, 'by_hand.rs')
BUILT = os.path.join(os.path.dirname(HERE), 'build', 'by_hand')


def by_hand():
    """The program written by hand, built again where its sources are newer; None where there is no rustc."""
    if not shutil.which('rustc'):
        return None
    sources = [BY_HAND] + glob.glob(os.path.join(HERE, 'by_hand', '*.rs'))
    if not os.path.exists(BUILT) or os.path.getmtime(BUILT) < max(map(os.path.getmtime, sources)):
        os.makedirs(os.path.dirname(BUILT), exist_ok=True)
        subprocess.run(['rustc', '-O', '-C', 'codegen-units=1', '--edition', '2021', '--crate-name', 'by_hand',
                        '-o', BUILT, BY_HAND], check=True)
    return BUILT


def timed(command, path):
    """The seconds of a call with a file as its input, and those of the processor."""
    with open(path, 'rb') as file:
        before = time.perf_counter()
        running = subprocess.Popen(command, stdin=file, stdout=subprocess.DEVNULL)
        _, status, used = os.wait4(running.pid, 0)
        passed = time.perf_counter() - before
    running.returncode = os.waitstatus_to_exitcode(status)
    if running.returncode != 0:
        sys.exit('%s: status %d on %s' % (' '.join(command), running.returncode, path))
    return passed, used.ru_utime + used.ru_stime


def least(commands, path, rounds):
    """Of each call the least seconds, and the least of the processor; the calls take turns."""
    times = [[timed(command, path) for command in commands] for _ in range(rounds)]
    return [tuple(map(min, zip(*of_one))) for of_one in zip(*times)]


def output(command, path):
    """A sum of what a call writes and its status."""
    sums = hashlib.blake2b()
    with open(path, 'rb') as file, subprocess.Popen(command, stdin=file, stdout=subprocess.PIPE) as running:
        for piece in iter(lambda: running.stdout.read(1 << 20), b''):
            sums.update(piece)
    return sums.digest(), running.returncode


def counted(command, text):
    """The instructions of a call, by perf or else valgrind; None where neither counts them."""
    with tempfile.TemporaryDirectory() as room, tempfile.TemporaryFile() as file:
        file.write(text)
        counts = os.path.join(room, 'counts')
        for tool, words, form in (
                ('perf', ['perf', 'stat', '-x', ',', '-e', 'instructions:u', '-o', counts], r'(?m)^(\d+),'),
                ('valgrind', ['valgrind', '--tool=callgrind', '--callgrind-out-file=' + counts],
                 r'(?m)^(?:totals|summary): (\d+)')):
            if not shutil.which(tool):
                continue
            file.seek(0)
            subprocess.run(words + command, stdin=file, stdout=subprocess.DEVNULL, stderr=subprocess.DEVNULL)
            if os.path.exists(counts):
                with open(counts) as told:
                    found = re.search(form, told.read())
                if found:
                    return int(found[1])
    return None


def instructions(command, lines, count):
    """How many instructions one of `count` lines takes, when as many went before; `-` where they aren't counted."""
    few, more = (counted(command, b''.join(lines[:n])) for n in (count, 2 * count))
    return '-' if few is None or more is None else '%.0f' % ((more - few) / count)


def ratio(ours, hand):
    """How many times as long; `-` where there is nothing beside it."""
    return '-' if hand is None else '%.2f' % (ours[1] / max(hand[1], 1e-4))


# Refuses the allocation with the number FAIL_AT, counted from 1, and tells at the end how many there were.
ALLOCATOR = r'''
#include <stddef.h>
#include <stdio.h>
#include <stdlib.h>
extern void *__libc_malloc(size_t);
extern void *__libc_realloc(void *, size_t);
extern void *__libc_calloc(size_t, size_t);
extern void *__libc_memalign(size_t, size_t);
static long count, at = -1;
static int refused(void) {
    if (at < 0) { const char *word = getenv("FAIL_AT"); at = word ? atol(word) : 0; }
    return ++count == at;
}
void *malloc(size_t n) { return refused() ? NULL : __libc_malloc(n); }
void *realloc(void *p, size_t n) { return refused() ? NULL : __libc_realloc(p, n); }
void *calloc(size_t m, size_t n) { return refused() ? NULL : __libc_calloc(m, n); }
void *aligned_alloc(size_t a, size_t n) { return refused() ? NULL : __libc_memalign(a, n); }
int posix_memalign(void **p, size_t a, size_t n) {
    if (refused()) return 12;
    *p = __libc_memalign(a, n);
    return *p ? 0 : 12;
}
__attribute__((destructor)) static void tell(void) { dprintf(2, "allocations %ld\n", count); }
'''


def allocator(folder):
    """The library that counts and refuses allocations, built in a folder."""
    library = os.path.join(folder, 'allocator.so')
    subprocess.run(['cc', '-O2', '-shared', '-fPIC', '-x', 'c', '-o', library, '-'], input=ALLOCATOR.encode(), check=True)
    return library


def allocating(library, number):
    """The environment of a call whose allocation with this number is refused; of 0 none is."""
    return dict(os.environ, LD_PRELOAD=library, FAIL_AT=str(number))


def allocations(said):
    """How many allocations there were, by what a call said; 0 where it didn't come to tell."""
    count = re.search(r'^allocations (\d+)$', said, re.M)
    return int(count.group(1)) if count else 0


def allocated(command, lines, count):
    """How many allocations one of `count` lines takes, when as many went before; `-` without a C compiler."""
    if not shutil.which('cc'):
        return '-'
    with tempfile.TemporaryDirectory() as room:
        library = allocator(room)
        few, more = (allocations(subprocess.run(
            command, env=allocating(library, 0), input=b''.join(lines[:n]), stdout=subprocess.DEVNULL,
            stderr=subprocess.PIPE).stderr.decode('utf-8', 'replace')) for n in (count, 2 * count))
    return '%.3f' % ((more - few) / count)
