#!/usr/bin/env python3
"""Proves programs, or libraries, and what they stand on, and nothing else, side by side, and builds them: build.py [CRATE..], wqrun
where none is named.

Each crate is proved by one `rattle build`. The library that it writes has what the crates above may cite and not how it was proved
(--statements), so that these load little. A crate can start when those below it are built, and does so the sooner, the longer its chain
of crates above it takes. The one that all wait for, whose chain is the longest of all that are left, gets two jobs, or three where it
stands on no other crate, as far as so many are left, and each other one a processor that is left. A further job loads anew all that
the crate stands on, which for the program takes longer than its proof. A crate that was built from the same files, over the same
libraries and by the same kit, is not proved again.

The libraries that the commands of `rt` build are others, and hold the proofs. These stand below them, in crates/CRATE/out/rlib/statements:
no other folder may have files of a library, by `rt ci`. Where `rt` builds its own anew, this one goes, and is built again by the next run.
"""
import fcntl
import hashlib
import os
import re
import shutil
import signal
import subprocess
import sys
import tempfile
import time
from concurrent.futures import FIRST_COMPLETED, ThreadPoolExecutor, wait
from pathlib import Path

TOP = Path(__file__).resolve().parent.parent
CRATES = TOP / "crates"
PARTS = ("src", "specs", "proofs")
TARGET = "x86_64-unknown-linux-gnu"
# what is built where nothing is named
USUAL = "wqrun"
PROCESSORS = len(os.sched_getaffinity(0))
# room for one job of a check
MEMORY_OF_A_JOB = 3 << 30
# How many seconds each crate takes with one job, on an idle machine. They order the crates and nothing else; no count of lines does
# that as well, since what a crate loads and how much in it is generic weigh as much as its length.
SECONDS = {
    "trail": 6, "wq_words": 43, "wq_core": 26, "wq_command_line": 52, "wq_table": 74, "wq_check": 89, "wq_calls": 63, "wq_live": 55,
    "wq_text": 138, "wq_ledger": 27, "wq_machine": 101, "wq_ready": 26, "wq_worker": 61, "wq_meaning": 38, "wq_plan": 17, "wq_turn": 32,
    "wq_delay": 72, "wq_pool": 86, "wq_recording": 85, "wq_race": 87, "wq_subcommand": 26, "wq_script": 84, "wq_commands": 22,
    "wq_pool_plan": 135, "wqrun": 63,
}  # fmt: skip
# those of a crate that is not named there
USUAL_SECONDS = 60
# how much less of a processor a crate of one job gets, where the one of more wants it too
NICENESS = 5
# the provers at work
RUNNING = set()
BEFORE = """Proves {names} and what it stands on, {count} crates, by at most {jobs} jobs at once, and builds it. All that is said goes
into {log}."""
LASTS = """From nothing that took 8 minutes by the clock on four idle processors, 27 minutes of them. A busy or slow machine takes
up to three times as long, and where nothing has changed it takes some seconds."""


def rows():
    """The crates of crates.txt, each with the libraries that it names: those of the repository, and those of the kit."""
    words = {crate: row.split() for crate, row in re.findall(r"^(\w+)(?: staticlib)?:(.*)$", (TOP / "crates.txt").read_text(), re.M)}
    own = {crate: [it for it in row if it in words] for crate, row in words.items()}
    return own, {crate: ["std", *(it for it in row if it not in words)] for crate, row in words.items()}


OWN, OF_KIT = rows()


def with_below(crates):
    """These crates behind all that they stand on, each behind those that it stands on itself."""
    found = {}
    for crate in crates:
        found |= {low: None for low in with_below(OWN[crate])}
        found[crate] = None
    return [*found]


def chains(crates):
    """How many seconds the longest chain of crates takes, from each crate upwards."""
    seconds = {}
    for crate in reversed(crates):
        above = max((seconds[it] for it in seconds if crate in OWN[it]), default=0)
        seconds[crate] = SECONDS.get(crate, USUAL_SECONDS) + above
    return seconds


def program_of(crate):
    """Where the program of a crate is built, if it has one."""
    return CRATES / crate / "out" / crate if (CRATES / crate / "src" / "main.rt").is_file() else None


def folder_of(crate):
    """Where the library of a crate is built, and the checksum of what it was built from."""
    return CRATES / crate / "out" / "rlib" / "statements"


class Build:
    """The crates to build, over one kit. What is given as held stays open in each prover, so that a lock lasts until the last one ends."""

    def __init__(self, names, kit, held=()):
        self.kit, self.crates, self.held = kit, with_below(names), held
        self.chain = chains(self.crates)
        self.sums = {}
        for crate in self.crates:
            self.sums[crate] = self.sum_of(crate)

    def sum_of(self, crate):
        """A checksum of all that a crate's proof reads."""
        total = hashlib.sha256((self.kit / "KIT-ID").read_bytes())
        total.update(repr([OF_KIT[crate], [self.sums[it] for it in OWN[crate]]]).encode())
        for file in sorted(it for part in PARTS for it in (CRATES / crate / part).rglob("*") if it.is_file()):
            total.update(repr((str(file.relative_to(CRATES)), file.read_bytes())).encode())
        return total.hexdigest()

    def kept_sum(self, crate):
        """What is kept of a crate that is built: the checksum of what it was built from, and its own of a program, which others build too."""
        program = program_of(crate)
        return self.sums[crate] + (hashlib.sha256(program.read_bytes()).hexdigest() if program else "")

    def is_built(self, crate):
        kept = folder_of(crate) / "sum"
        made = program_of(crate) or folder_of(crate) / f"{crate}.rlib"
        return made.exists() and kept.is_file() and kept.read_text() == self.kept_sum(crate)

    def words(self, crate, jobs, made):
        """The command that proves a crate, and writes what is made of it."""
        root = "src/lib.rt" if program_of(crate) is None else "src/main.rt"
        words = [self.kit / "bin/rattle", "build", "--crate-name", crate, root, "--jobs", jobs, "-o", made]
        words += ["--antt-project", self.kit / "rattle/logic/antt-project.json", "--logic-built", self.kit / "logic_built"]
        words += ["--statements"] if program_of(crate) is None else ["--toolchain", self.kit / "toolchain"]
        words += ["-L", f"dependency={self.kit}/rlibs"]
        for it in OF_KIT[crate]:
            words += ["--extern", f"{it}={self.kit}/rlibs/{it}.rlib"]
        for it in with_below(OWN[crate]):
            words += ["-L", f"dependency={folder_of(it)}"]
        for it in OWN[crate]:
            words += ["--extern", f"{it}={folder_of(it) / it}.rlib"]
        return [str(it) for it in words]

    def commands(self, crate, jobs, folder):
        """What is called for a crate, one after the other: a program is linked, too."""
        program = program_of(crate)
        if program is None:
            return [self.words(crate, jobs, folder_of(crate) / f"{crate}.rlib")]
        made = f"{folder}/{crate}.o"
        link = [f"{self.kit}/bin/rattle-link", "--target", TARGET, "--toolchain", f"{self.kit}/toolchain", "-o", str(program), made]
        return [self.words(crate, jobs, made), [*link, f"{self.kit}/c/libos_c.a", f"{self.kit}/c/liblibc_c.a"]]

    def prove(self, crate, jobs, niceness):
        """Proves and builds one crate: whether it is proved, and what was said."""
        kept = folder_of(crate) / "sum"
        kept.parent.mkdir(parents=True, exist_ok=True)
        kept.unlink(missing_ok=True)
        said, began = "", time.monotonic()
        with tempfile.TemporaryDirectory(prefix="wqrun-build-") as folder:
            for words in self.commands(crate, jobs, folder):
                pipes = {"stdout": subprocess.PIPE, "stderr": subprocess.STDOUT, "text": True, "errors": "replace", "pass_fds": self.held}
                with subprocess.Popen(["nice", "-n", str(niceness), *words], cwd=CRATES / crate, **pipes) as ran:
                    RUNNING.add(ran)
                    said += ran.communicate()[0]
                    RUNNING.discard(ran)
                if ran.returncode:
                    break
        # what was changed meanwhile is proved again by the next run
        if ran.returncode == 0 and self.sum_of(crate) == self.sums[crate]:
            kept.write_text(self.kept_sum(crate))
        return ran.returncode == 0, f"== {crate}, {time.monotonic() - began:.0f} seconds, {jobs} jobs\n{said}"

    def prove_all(self, log):
        """Proves the crates side by side, with a line for each; whether all are proved."""
        running = {}
        built = {it for it in self.crates if self.is_built(it)}
        left, most = [it for it in self.crates if it not in built], jobs_at_once()
        with ThreadPoolExecutor(most) as pool:
            while left or running:
                for crate in sorted((it for it in left if built.issuperset(OWN[it])), key=self.chain.get, reverse=True):
                    at_work = [jobs for _, jobs in running.values()]
                    free = most - sum(at_work)
                    if free <= 0:
                        break
                    is_waited_for = self.chain[crate] >= max(self.chain[it] for it in left)
                    has_one = program_of(crate) or max(at_work, default=1) > 1 or not is_waited_for
                    jobs = 1 if has_one else min(free, 2 if OWN[crate] else 3)
                    running[pool.submit(self.prove, crate, jobs, 0 if jobs > 1 else NICENESS)] = crate, jobs
                    left.remove(crate)
                for it in wait(running, return_when=FIRST_COMPLETED).done:
                    (is_proved, said), (crate, _) = it.result(), running.pop(it)
                    print(said, file=log, flush=True)
                    if not is_proved:
                        print(f"{said}{crate} is not proved; what runs beside it comes to its end", flush=True)
                        return False
                    built.add(crate)
                    print(f"{time.strftime('%H:%M:%S')} {len(built)} of {len(self.crates)}: {crate}", flush=True)
        return True


def jobs_at_once():
    """How many jobs run side by side: one for each processor, as far as there is memory."""
    free = int(re.search(r"MemAvailable:\s+(\d+)", Path("/proc/meminfo").read_text())[1]) << 10
    return max(1, min(PROCESSORS, free // MEMORY_OF_A_JOB))


def stop(number, _frame):
    """Ends the provers with the script: what is built stays, and a later run goes on from it."""
    for it in list(RUNNING):
        it.terminate()
    os._exit(128 + number)


def lone_run(crates):
    """Waits for another run in this repository, and for `rt` in these crates, and keeps both out while what is given back is open."""
    held = [os.open(it, os.O_RDONLY) for it in (TOP / "crates.txt", *sorted(CRATES / it for it in crates))]
    for it in held:
        try:
            fcntl.flock(it, fcntl.LOCK_EX | fcntl.LOCK_NB)
        except BlockingIOError:
            print("Waits for another run in this repository, or for an `rt` in one of its crates.", flush=True)
            fcntl.flock(it, fcntl.LOCK_EX)
    return held


def main():
    names = sys.argv[1:] or [USUAL]
    if not OWN.keys() >= set(names):
        sys.exit(__doc__)
    rt = shutil.which("rt")
    if rt is None:
        sys.exit('build.py: there is no rt on the PATH. It comes with Rattle\'s toolchain: README.md, "Run it"')
    signal.signal(signal.SIGTERM, stop)
    held = lone_run(with_below(names))
    build = Build(names, Path(rt).resolve().parent.parent, held)
    with tempfile.NamedTemporaryFile("w", prefix="wqrun-build-", delete=False) as log:
        print(BEFORE.format(names=" and ".join(names), count=len(build.crates), jobs=jobs_at_once(), log=log.name), flush=True)
        if names == [USUAL]:
            print(LASTS, flush=True)
        is_proved = build.prove_all(log)
    for it in filter(program_of, names):
        if is_proved:
            print(f"built {program_of(it).relative_to(TOP)}")
    return 0 if is_proved else 1


if __name__ == "__main__":
    sys.exit(main())
