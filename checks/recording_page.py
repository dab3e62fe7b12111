#!/usr/bin/env python3
"""Does what docs/RECORDING.md says, in C and, where it is installed, in Rust; its lines in Go are not compiled:
recording_page.py PROGRAM.

The page's own lines, as they stand, are put where it says into a queue under a lock, with three senders and one worker.
What the queue then prints must be legal and drained, as PROGRAM judges it, and have each item queued, since a recording of nothing
is legal, too. Rust is left out where no compiler of it runs; one of C is wanted.
"""
import os
import re
import shutil
import subprocess
import sys
import tempfile

TOP = os.path.dirname(os.path.dirname(os.path.abspath(__file__)))
# how many items the queue has, each of which comes at least once
ITEMS = 64

C = """
#include <pthread.h>
#include <sched.h>
#include <stdatomic.h>
#include <stdio.h>
enum { items = 64, rounds = 2000 };
@marks@
static pthread_mutex_t lock = PTHREAD_MUTEX_INITIALIZER;
static pthread_cond_t more = PTHREAD_COND_INITIALIZER;
static int list[items], first, count, open = 1, pending[items], sum;
static void run(int item) { sum += item; }
static void *send(void *seed) {
    for (int round = 0; round < rounds; round++) {
        int item = (round * 7 + *(int *)seed) % items;
        pthread_mutex_lock(&lock);
        if (!pending[item]) {
            pending[item] = 1;
            @queue@
            list[(first + count++) % items] = item;
            pthread_cond_signal(&more);
        }
        pthread_mutex_unlock(&lock);
        sched_yield();
    }
    return NULL;
}
static void *work(void *nothing) {
    for (;;) {
        pthread_mutex_lock(&lock);
        while (!count && open) pthread_cond_wait(&more, &lock);
        if (!count) return pthread_mutex_unlock(&lock), nothing;
        int item = list[first];
        first = (first + 1) % items, count--, pending[item] = 0;
        pthread_mutex_unlock(&lock);
        @work@
    }
}
int main(void) {
    pthread_t senders[3], worker;
    int seeds[3] = {1, 5, 9};
    pthread_create(&worker, NULL, work, NULL);
    for (int at = 0; at < 3; at++) pthread_create(&senders[at], NULL, send, &seeds[at]);
    for (int at = 0; at < 3; at++) pthread_join(senders[at], NULL);
    pthread_mutex_lock(&lock);
    open = 0;
    pthread_cond_signal(&more);
    pthread_mutex_unlock(&lock);
    pthread_join(worker, NULL);
    @print@
    return 0;
}
"""

RUST = """
use std::collections::VecDeque;
use std::sync::atomic::{AtomicU64, AtomicUsize, Ordering::Relaxed};
use std::sync::{Condvar, Mutex};
@marks@
static SUM: AtomicUsize = AtomicUsize::new(0);
fn run(item: usize) { SUM.fetch_add(item, Relaxed); }
fn main() {
    let items = 64;
    let (lock, more) = (Mutex::new((VecDeque::new(), vec![false; items], true)), Condvar::new());
    std::thread::scope(|threads| {
        let send = |seed: usize| for round in 0..2000 {
            let item = (round * 7 + seed) % items;
            let mut queue = lock.lock().unwrap();
            if !queue.1[item] {
                queue.1[item] = true;
                @queue@
                queue.0.push_back(item);
                more.notify_one();
            }
            drop(queue);
            std::thread::yield_now();
        };
        threads.spawn(|| loop {
            let mut queue = more.wait_while(lock.lock().unwrap(), |it| it.0.is_empty() && it.2).unwrap();
            let item = match queue.0.pop_front() { Some(item) => item, None => return };
            queue.1[item] = false;
            drop(queue);
            @work@
        });
        let senders = [1, 5, 9].map(|seed| threads.spawn(move || send(seed)));
        for it in senders { it.join().unwrap(); }
        lock.lock().unwrap().2 = false;
        more.notify_one();
    });
    @print@
}
"""


def compilers():
    """Yields each language of the page: its name, the program around its lines, its file's ending, and the words that compile it."""
    yield "C", C, "c", [os.environ.get("CC", "cc"), "-O2", "-Wall", "-Wextra", "-pthread"]
    yield "Rust", RUST, "rs", ["rustc", "--edition", "2021", "-O"]


def runs(compiler):
    """Whether there is such a compiler: a name of rustup's that has no toolchain behind it is none."""
    return shutil.which(compiler) and subprocess.run([compiler, "--version"], capture_output=True, timeout=60).returncode == 0


def lines_of(page, language):
    """Returns the page's lines for a language: those that keep the marks, that queue, that work, and that print."""
    told = re.search(rf"^In {language}\b.*?(?=^In |^What it prints)", page, re.M | re.S)
    code = [it[4:] for it in told.group().splitlines() if it.startswith("    ")]
    queue = next(at for at, it in enumerate(code) if "on the list" in it)
    return {"marks": code[:queue], "queue": code[queue : queue + 1], "work": code[queue + 1 : queue + 2], "print": code[queue + 2 :]}


def said_of(page, language, text, ending, words, program, folder):
    """Returns what PROGRAM says of a run of the page's lines."""
    for name, code in lines_of(page, language).items():
        text = text.replace(f"@{name}@", "\n".join(code))
    source, built, trace = (f"{folder}/{it}" for it in (f"page.{ending}", "page", "page.trace"))
    with open(source, "w") as out:
        out.write(text)
    subprocess.run([*words, "-o", built, source], check=True, timeout=60)
    with open(trace, "w") as out:
        subprocess.run([built], stdout=out, check=True, timeout=60)
    return subprocess.run([program, "check", "--drained", trace], capture_output=True, text=True, timeout=60)


def is_wanted(said):
    """Whether the recording is legal and drained, and has each item at least once."""
    queued = re.search(r"^queued (\d+)$", said.stdout, re.M)
    return said.returncode == 0 and said.stdout.startswith("legal\n") and queued is not None and int(queued[1]) >= ITEMS


def main():
    if len(sys.argv) != 2:
        sys.exit(__doc__)
    with open(f"{TOP}/docs/RECORDING.md") as file:
        page = file.read()
    wrong = 0
    for language, text, ending, words in compilers():
        if not runs(words[0]):
            print(f"recording page: no {words[0]} runs, so {language} is left out" + (": not as wanted" if language == "C" else ""))
            wrong += language == "C"
            continue
        with tempfile.TemporaryDirectory() as folder:
            said = said_of(page, language, text, ending, words, os.path.realpath(sys.argv[1]), folder)
        lines = said.stdout.splitlines()
        is_right = is_wanted(said)
        wrong += not is_right
        print(f"recording page: {language}, {' '.join(lines)}" + ("" if is_right else f": not as wanted, status {said.returncode} {said.stderr}"))
    sys.exit(wrong != 0)


if __name__ == "__main__":
    main()
