"""Runs the program over mutants and judges each run; tests/fuzzed/run says what is wrong, and how it is used."""

import argparse
import os
import random
import resource
import shlex
import signal
import sys
import tempfile
from collections import Counter
from multiprocessing import Pool
from pathlib import Path
from typing import List, NamedTuple

from corpus import FILES, LARGEST, TOP, Case, by_name, cases
from lines import MODES, asked, judged
from mutate import Mutator
from shapes import shape

SECONDS = 10
MEMORY = 1_000_000  # in units of 1,000 bytes, as the system counts
SHAPED = 0.06  # how often a case is a shape, and how often that is changed once more
FULL = 0.01  # how often the output goes to a device that is full


class Run(NamedTuple):
    """How a run ended: its status (less than 0 where a signal ended it), what it printed, and what it took."""

    status: int
    out: bytes
    error: bytes
    seconds: float
    memory: int


def bounded(words):
    """The words with a budget of at most 65536 nodes, where they are such as have one."""
    ask = asked(words)
    if "--budget" not in MODES.get(ask.mode, ()) or int(ask.values.get("--budget", 4000000)) <= 65536:
        return words
    if "--budget" not in ask.values:
        return ["--budget=65536", *words]
    at = next(at for at, word in enumerate(words) if word.partition("=")[0] == "--budget")
    if "=" in words[at]:
        return [*words[:at], "--budget=65536", *words[at + 1 :]]
    return [*words[: at + 1], "65536", *words[at + 2 :]]


def made(seed, number, corpus):
    """The run of a number: its case, and whether its output goes to a device that is full."""
    draw = random.Random(f"{seed} {number}")
    mutator = Mutator(draw, corpus)
    if draw.random() < SHAPED:
        case = Case(FILES, [text[: LARGEST - 1] for text in shape(draw)])
        if draw.random() < 0.3:
            case = mutator.mutant(case)
        else:
            case = Case(mutator.asked(case.texts), case.texts)
    else:
        case = mutator.mutant(draw.choice(corpus))
    return Case(bounded(case.words), case.texts), draw.random() < FULL


def write(folder, case):
    """Writes the files of a case into a folder, and its command line beside them."""
    for name, text in by_name(case.texts).items():
        (folder / name).write_bytes(text)


def ran(program, words, folder, full):
    """Runs the program in a folder, which is the one that this process is in."""
    into = "/dev/full" if full else "out"
    files = [(os.POSIX_SPAWN_OPEN, 0, "/dev/null", os.O_RDONLY, 0)]
    for number, name in ((1, into), (2, "error")):
        files.append((os.POSIX_SPAWN_OPEN, number, name, os.O_WRONLY | os.O_CREAT | os.O_TRUNC, 0o644))
    child = os.posix_spawn(program, [program, *(word.encode("latin-1") for word in words)], {}, file_actions=files)
    try:
        resource.prlimit(child, resource.RLIMIT_CPU, (SECONDS + 1, SECONDS + 3))
        resource.prlimit(child, resource.RLIMIT_AS, (4 << 30, 4 << 30))
    except (ProcessLookupError, PermissionError):
        pass  # it has ended
    signal.signal(signal.SIGALRM, lambda *_: os.kill(child, signal.SIGKILL))
    signal.alarm(30 * SECONDS)
    _, status, used = os.wait4(child, 0)
    signal.alarm(0)
    out = b"" if full else (folder / "out").read_bytes()
    return Run(os.waitstatus_to_exitcode(status), out, (folder / "error").read_bytes(), used.ru_utime + used.ru_stime, used.ru_maxrss)


def wrong_of(case, run, full):
    """The kinds of the lines of a run, and what is wrong with it."""
    if run.status < 0:
        return [], [f"ended by signal {-run.status} ({signal.Signals(-run.status).name}) after {run.seconds:.1f} s"]
    wrong = []
    if run.seconds > SECONDS:
        wrong.append(f"takes {run.seconds:.1f} seconds")
    if run.memory > MEMORY or run.status == 7:
        wrong.append(f"takes {run.memory // 1000} MB, status {run.status}")
    if run.error:
        wrong.append(f"standard error: {run.error[:200]!r}")
    if full:
        return ["not written"], wrong + ([] if run.status in (0, 6) else [f"status {run.status} where the output is full"])
    if run.status == 7:
        return [], wrong
    seen, more = judged(case.words, by_name(case.texts), run.status, run.out)
    return seen, wrong + more


class Told(NamedTuple):
    """What one run gave: its number, its status, the kinds of its lines, what is wrong, and what it took."""

    number: int
    status: int
    seen: List[str]
    wrong: List[str]
    seconds: float
    memory: int


def tried(work):
    """Makes one run and judges it, in a folder of this process."""
    seed, number, program = work
    case, full = made(seed, number, CORPUS)
    write(ROOM, case)
    run = ran(program, case.words, ROOM, full)
    if run.seconds > SECONDS:  # a machine with much other work counts some of it: the lesser of two runs
        run = min(run, ran(program, case.words, ROOM, full), key=lambda it: it.seconds)
    seen, wrong = wrong_of(case, run, full)
    if full and run.status == 0 and ran(program, case.words, ROOM, False).out:
        wrong.append("status 0 where the output is full")
    return Told(number, run.status, seen, wrong, run.seconds, run.memory)


def prepare(place):
    """Gives this process a folder of its own."""
    global CORPUS, ROOM
    CORPUS = cases()
    ROOM = Path(tempfile.mkdtemp(dir=place))
    os.chdir(ROOM)


def keep(folder, seed, told, program):
    """Keeps the files of a run that is wrong, with its words and what is wrong."""
    case, _ = made(seed, told.number, cases())
    room = folder / f"{seed}-{told.number}"
    room.mkdir(parents=True, exist_ok=True)
    write(room, case)
    (room / "words").write_bytes("".join(word + "\n" for word in case.words).encode("latin-1"))
    (room / "wrong").write_text("".join(f"{it}\n" for it in told.wrong) + f"{program} {shlex.join(case.words)}\n", errors="replace")
    print(f"fuzzed: {room}: {'; '.join(told.wrong)}", flush=True)


def words_of_run():
    """The words of this run, as tests/fuzzed/run lists them."""
    parser = argparse.ArgumentParser(prog="tests/fuzzed/run")
    parser.add_argument("-j", dest="processes", type=int, default=2)
    parser.add_argument("--keep", type=Path)
    parser.add_argument("--only", type=int)
    parser.add_argument("--seen", action="store_true")
    parser.add_argument("count", type=int, nargs="?", default=2000)
    parser.add_argument("seed", nargs="?", default="1")
    parser.add_argument("program", type=Path, nargs="?", default=TOP / "bin" / "verity")
    return parser.parse_args()


def show(statuses, kinds, lines, dearest):
    """Prints what was seen."""
    for name, counts in (("status", statuses), ("runs with", kinds), ("lines", lines)):
        for key, count in sorted(counts.items(), key=lambda it: (-it[1], str(it[0]))):
            print(f"{name} {key}: {count}")
    for told in dearest:
        print(f"run {told.number}: {told.seconds:.2f} s, {told.memory // 1000} MB")


def main():
    asks = words_of_run()
    program = str(asks.program.resolve())
    if not os.access(program, os.X_OK):
        sys.exit(f"fuzzed: no program: {asks.program}")
    kept = (asks.keep or Path(tempfile.mkdtemp(prefix="fuzzed-"))).resolve()
    numbers = range(1, asks.count + 1) if asks.only is None else [asks.only]
    statuses, kinds, lines, dearest, failed = Counter(), Counter(), Counter(), [], 0
    memory = "/dev/shm" if os.access("/dev/shm", os.W_OK) else None
    with tempfile.TemporaryDirectory(dir=memory) as place, Pool(asks.processes, prepare, (place,)) as pool:
        for told in pool.imap_unordered(tried, ((asks.seed, number, program) for number in numbers), 16):
            statuses[told.status] += 1
            kinds.update(set(told.seen))
            lines.update(told.seen)
            dearest = sorted([*dearest, told], key=lambda it: -it.seconds)[:8]
            if told.wrong or asks.only is not None:
                failed += bool(told.wrong)
                keep(kept, asks.seed, told, program)
    if asks.seen:
        show(statuses, kinds, lines, dearest)
    if not failed and asks.keep is None and asks.only is None:
        kept.rmdir()
    print(f"fuzzed: {sum(statuses.values())} runs, {failed} wrong, {len(kinds)} kinds of lines")
    sys.exit(1 if failed else 0)


if __name__ == "__main__":
    main()
