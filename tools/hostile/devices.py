"""Test each read and write: files that fail, end or return little, terminals, and outputs that
fail, fill up, close or wait."""
from __future__ import annotations

import fcntl
import mmap
import os
import resource
import signal
import shutil
import subprocess
import termios
import threading
import time
from typing import Callable, Optional

import model
from compare import Program, answer_of_model, read
from case_texts import LONGEST_WHOLE, Made, Report, answer_of_ending, answer_of_failing

PIECES = range(1, 71)
SECONDS = 60  # maximum time of a run


class Devices:
    """Runs the program with tools/hostile/devices.c, which intercepts its reads and writes."""

    def __init__(self, program: Program, shim: str):
        self.program, self.shim = program, shim
        self.reads = (
            self.before
        ) = self.stopped = self.writes = self.longest_read = self.longest_write = 0

    def answer(self, made: Made, **more) -> model.Answer:
        self.program.put(made)
        more = {name: str(number) for name, number in more.items()}
        got = self.program.answer(
            made.words, LD_PRELOAD=self.shim, DEVICE_COUNTS=self.program.count, **more
        )
        numbers = [int(number) for number in read(self.program.count, b"0 0 0 0 0 0").split()]
        (
            self.reads,
            self.before,
            self.stopped,
            self.writes,
            self.longest_read,
            self.longest_write,
        ) = numbers
        os.unlink(self.program.count)
        return got

    def blocks(self) -> list[int]:
        """Return the program's block sizes in the last run, plus and minus one."""
        sizes = {
            size + more
            for size in (self.longest_read, self.longest_write)
            if size
            for more in (-1, 0, 1)
        }
        return sorted(size for size in sizes if size > 0)

    def place_of_stop(self) -> Optional[int]:
        """Return the index of the file that failed or ended early. The script is opened first, as
        descriptor 3, and then each grid."""
        return self.stopped - 3 if self.stopped >= 0 else None


def written(expected: model.Answer, count: int) -> model.Answer:
    """Return the expected result of a successful run if the output accepts only `count` bytes."""
    told = b"rcell: output:0: write failed after %d bytes\n" % count
    return model.Answer(4, expected.output[:count], told)


def places(count: int, settings) -> list[int]:
    """Return the numbers from 1 to `count`, or some of them if there are many."""
    most = (
        settings.places if count <= LONGEST_WHOLE else min(settings.places, settings.places_of_long)
    )
    return (
        list(range(1, count + 1))
        if count <= most
        else sorted(settings.random.sample(range(1, count + 1), most))
    )


# Reads


def stopped_read(
    devices: Devices, made: Made, expected: model.Answer, answer_of, **how
) -> tuple[str, bool]:
    """Make one read fail or report an end. Return the error, and whether a read was stopped."""
    got = devices.answer(made, **how)
    place = devices.place_of_stop()
    wanted = expected if place is None else answer_of(made, place, devices.before)
    return "" if got == wanted else f"with {how}: {got}, and not {wanted}", place is not None


def stopped_reads(
    devices: Devices, made: Made, expected: model.Answer, settings
) -> tuple[str, int]:
    """Make each read fail in turn, for good and once, and report an end once, with full reads and
    with single bytes.

    Returns the error, and the number of stopped reads. A file that fails or ends once continues if
    it is read again.
    """
    stopped = 0
    for piece in (0, 1):
        devices.answer(made, READ_PIECE=piece)
        for at in places(devices.reads + 1, settings):
            for answer_of, how in (
                (answer_of_failing, {"READ_FAILS": at}),
                (answer_of_failing, {"READ_FAILS": at, "READ_ONCE": 1}),
                (answer_of_ending, {"READ_ENDS": at}),
            ):
                wrong, was_stopped = stopped_read(
                    devices, made, expected, answer_of, READ_PIECE=piece, **how
                )
                stopped += was_stopped
                if wrong:
                    return wrong, stopped
    return "", stopped


def small_pieces(
    devices: Devices, made: Made, expected: model.Answer, variable: str, settings
) -> tuple[str, int]:
    """Limit reads or writes to a piece at a time, for each size."""
    if devices.answer(made) != expected:
        return "the preload alone changes the answer", 0
    sizes = [*PIECES, *devices.blocks()]
    if len(sizes) > settings.places:
        sizes = settings.random.sample(sizes, settings.places)
    for size in sizes:
        got = devices.answer(made, **{variable: size})
        if got != expected:
            return f"with {variable}={size}: {got}, and not {expected}", len(sizes)
    return "", len(sizes)


def read_pieces(devices: Devices, made: Made, expected: model.Answer, settings) -> tuple[str, int]:
    return small_pieces(devices, made, expected, "READ_PIECE", settings)


def each_case(
    report: Report, devices: Devices, cases: dict[str, Made], settings, what: str, failing, pieces
) -> None:
    """Make each read or write of each case fail (or, for reads, end) in turn, and then limit their
    sizes."""
    failed = others = 0
    for name, made in cases.items():
        expected = answer_of_model(made)
        wrong, count = failing(devices, made, expected, settings)
        again, more = pieces(devices, made, expected, settings)
        failed, others = failed + count, others + more
        report.check(f"{what} of {name}", wrong or again)
    report.runs += failed + others
    print(
        f"{what}: {len(cases)} cases, {failed} {what} that failed or ended in turn, {others} other runs"
    )


def reads(report: Report, devices: Devices, cases: dict[str, Made], settings) -> None:
    each_case(report, devices, cases, settings, "reads", stopped_reads, read_pieces)


# Writes


def failing_writes(
    devices: Devices, made: Made, expected: model.Answer, settings
) -> tuple[str, int]:
    failed = 0
    for piece in (0, 1):
        devices.answer(made, WRITE_PIECE=piece)
        for at in places(devices.writes, settings):
            got = devices.answer(made, WRITE_PIECE=piece, WRITE_FAILS=at)
            failed += 1
            count = at - 1 if piece else len(got.output)
            if got != written(expected, count):
                return f"with write {at} of {piece or 'all'} bytes failing: {got}", failed
    return "", failed


def untold(devices: Devices, made: Made, expected: model.Answer) -> str:
    """Check that a failed write to standard error does not change the status and the output."""
    got = devices.answer(made, TELL_FAILS=1)
    return (
        ""
        if (got.status, got.output, got.told) == (expected.status, expected.output, b"")
        else f"untold: {got}"
    )


def write_pieces(devices: Devices, made: Made, expected: model.Answer, settings) -> tuple[str, int]:
    """Limit the sizes of writes, and then make standard error accept nothing."""
    wrong, count = small_pieces(devices, made, expected, "WRITE_PIECE", settings)
    return wrong or untold(devices, made, expected), count + 1


def writes(report: Report, devices: Devices, cases: dict[str, Made], settings) -> None:
    each_case(report, devices, cases, settings, "writes", failing_writes, write_pieces)


# Outputs


def ran(
    program: Program, words, output=subprocess.PIPE, given: Optional[bytes] = None, **more
) -> model.Answer:
    """Run with subprocess, with a pipe for standard error."""
    done = subprocess.run(
        [program.path, *words],
        stdout=output,
        stderr=subprocess.PIPE,
        env={"PATH": "/usr/bin:/bin"},
        timeout=SECONDS,
        **({"stdin": subprocess.DEVNULL} if given is None else {"input": given}),
        **more,
    )
    return model.Answer(done.returncode, done.stdout or b"", done.stderr)


def file_limited(program: Program, made: Made, limit: int) -> model.Answer:
    """Run with a file of limited size as output, and the signal ignored."""

    def before():
        signal.signal(signal.SIGXFSZ, signal.SIG_IGN)
        resource.setrlimit(resource.RLIMIT_FSIZE, (limit, limit))

    with open(program.output, "wb") as output:
        got = ran(program, made.words, output, preexec_fn=before, restore_signals=False)
    return model.Answer(got.status, read(program.output), got.told)


def to_full(program: Program, made: Made) -> model.Answer:
    with open("/dev/full", "wb") as output:
        return ran(program, made.words, output)


def to_closed(program: Program, made: Made) -> model.Answer:
    reading, writing = os.pipe()
    os.close(reading)
    with os.fdopen(writing, "wb") as output:
        return ran(program, made.words, output)


def closed_at_start(program: Program, made: Made, number: int) -> model.Answer:
    """Run with one of the three standard files closed at the start, so that the script takes its
    descriptor."""
    return ran(program, made.words, preexec_fn=lambda: os.close(number))


def to_waiting(program: Program, made: Made) -> model.Answer:
    """Run with an output that is read byte by byte, after a second."""
    child = subprocess.Popen(
        [program.path, *made.words],
        stdin=subprocess.DEVNULL,
        stdout=subprocess.PIPE,
        stderr=subprocess.PIPE,
        env={"PATH": "/usr/bin:/bin"},
        bufsize=0,
    )
    time.sleep(1)
    output = b"".join(iter(lambda: child.stdout.read(1), b""))
    told = child.stderr.read()
    return model.Answer(child.wait(SECONDS), output, told)


def without_waiting(program: Program, made: Made) -> model.Answer:
    """Run with a small pipe as output, which is read at the end. When it is full, it reports this
    instead of waiting."""
    reading, writing = os.pipe()
    fcntl.fcntl(writing, fcntl.F_SETPIPE_SZ, mmap.PAGESIZE)
    os.set_blocking(writing, False)
    with os.fdopen(writing, "wb") as output:
        got = ran(program, made.words, output)
    with os.fdopen(reading, "rb") as pipe:
        return model.Answer(got.status, pipe.read(), got.told)


def wrong_output(program: Program, made: Made, expected: model.Answer, settings) -> tuple[str, int]:
    """Return the error of the program with outputs that fail, and the number of runs."""
    nothing_out = written(expected, 0) if expected.output else expected
    untold = model.Answer(expected.status, expected.output, b"")
    runs = [
        ("/dev/full", to_full(program, made), nothing_out),
        ("a closed pipe", to_closed(program, made), nothing_out),
        ("closed standard input", closed_at_start(program, made, 0), expected),
        ("closed standard error", closed_at_start(program, made, 2), untold),
    ]
    if expected.output:
        closed = model.Answer(4, b"", written(expected, 0).told)
        runs.append(("closed standard output", closed_at_start(program, made, 1), closed))
        for limit in [place - 1 for place in places(len(expected.output), settings)]:
            runs.append(
                (
                    f"a file of {limit} bytes",
                    file_limited(program, made, limit),
                    written(expected, limit),
                )
            )
    for where, got, wanted in runs:
        if got != wanted:
            return f"with {where}: {got}, and not {wanted}", len(runs)
    return "", len(runs)


DISK = """mount -t tmpfs -o size="$1" tmpfs "$2" || exit 99
shift; disk=$1; shift
"$@" > "$disk/out"; status=$?
cat "$disk/out"; umount "$disk"; exit $status"""
# In a chroot whose root is not a mount point, the first command is denied.
OWN_MOUNTS = (["unshare", "--mount"], ["unshare", "--mount", "--propagation", "unchanged"])


def on_a_full_disk(program: Program, made: Made, size: int) -> Optional[model.Answer]:
    """Run with a file system of a given size for the output. Return None if it cannot be
    mounted."""
    disk = f"{program.room}/disk"
    os.makedirs(disk, exist_ok=True)
    words = ["sh", "-c", DISK, "sh", str(size), disk, program.path, *made.words]
    for own_mounts in OWN_MOUNTS if shutil.which("unshare") else ():
        done = subprocess.run(
            [*own_mounts, *words], stdin=subprocess.DEVNULL, capture_output=True, timeout=SECONDS
        )
        if done.returncode != 99 and b"unshare" not in done.stderr:
            return model.Answer(done.returncode, done.stdout, done.stderr)
    return None


def large_output() -> Made:
    """Return a run whose output grid is longer than several blocks."""
    header = b"north: 50\nsouth: 0\neast: 100\nwest: 0\nrows: 50\ncols: 100\n"
    cells = b"\n".join(
        b" ".join(b"%d" % (row * col % 1000) for col in range(100)) for row in range(50)
    )
    return Made(
        {"script": b"r.stats -c input=g\nr.out.ascii input=g\n", "grid0": header + cells + b"\n"},
        [(b"g", "grid0")],
    )


def full_disks(report: Report, program: Program) -> None:
    made = large_output()
    program.put(made)
    expected = answer_of_model(made)
    for size in (4096, 8192, 16384):
        got = on_a_full_disk(program, made, size)
        if got is None:
            print(
                "skipped  hostile/disks: no file system may be mounted here; install: apt-get install mount"
            )
            return
        report.runs += 1
        report.check(
            f"a disk of {size} bytes",
            ""
            if got == written(expected, size)
            else f"{got.status}, {got.told!r}, {len(got.output)} bytes",
        )


def outputs(report: Report, devices: Devices, cases: dict[str, Made], settings) -> None:
    program, runs = devices.program, 0
    for name, made in cases.items():
        program.put(made)
        wrong, count = wrong_output(program, made, answer_of_model(made), settings)
        runs += count
        report.check(f"outputs of {name}", wrong)
    full_disks(report, program)
    made = large_output()
    program.put(made)
    report.compare(
        "an output read a byte at a time", made, answer_of_model(made), to_waiting(program, made)
    )
    got = without_waiting(program, made)
    report.compare(
        "an output that does not wait", made, written(answer_of_model(made), len(got.output)), got
    )
    report.runs += runs
    print(f"outputs: {len(cases)} cases, {runs} runs to full, closed and limited files")


# Inputs


def poured(path: str, text: bytes, at: int, seconds: float) -> threading.Thread:
    """Write a text to a named pipe, with a pause in the middle."""

    def pour():
        try:
            with open(path, "wb", buffering=0) as pipe:
                pipe.write(text[:at])
                time.sleep(seconds)
                pipe.write(text[at:])
        except BrokenPipeError:
            pass

    thread = threading.Thread(target=pour, daemon=True)
    thread.start()
    return thread


def middle_of_a_token(text: bytes) -> int:
    """Return a position inside a token, near the middle of the text."""
    inside = [
        at
        for at in range(1, len(text))
        if not text[at - 1 : at].isspace() and not text[at : at + 1].isspace()
    ]
    return min(inside, key=lambda at: abs(at - len(text) // 2), default=len(text) // 2)


def through_pipes(program: Program, made: Made, paths: list[str], seconds: float) -> model.Answer:
    """Run with named pipes for some files, each of which pauses in the middle of a token."""
    for path in paths:
        os.unlink(path)
        os.mkfifo(path)
        poured(path, made.files[path], middle_of_a_token(made.files[path]), seconds)
    try:
        return ran(program, made.words)
    finally:
        for path in paths:
            os.unlink(path)


def of_standard_input(program: Program, made: Made, path: str) -> model.Answer:
    """Run with one of the files as standard input."""
    words = [b"/dev/stdin" if path == "script" else b"script"]
    words += [
        name + b"=" + (b"/dev/stdin" if grid == path else grid.encode())
        for name, grid in made.grids
    ]
    return ran(program, words, given=made.files[path])


def inputs(report: Report, devices: Devices, cases: dict[str, Made], settings) -> None:
    """Test pipes, standard input and pauses, for a few cases."""
    program, runs = devices.program, 0
    chosen = [
        name
        for name in ("cases/five-commands", "cases/table-and-grid", "cases/last-cell-missing")
        if name in cases
    ]
    for name in chosen:
        made = cases[name]
        expected, paths = answer_of_model(made), list(made.files)
        trials: list[Callable[[], model.Answer]] = [
            lambda: through_pipes(program, made, paths, 0),
            lambda: through_pipes(program, made, paths[1:2], 1),
        ]
        trials += [lambda: through_pipes(program, made, paths[:1], 1)]
        trials += [lambda path=path: of_standard_input(program, made, path) for path in paths]
        for number, trial in enumerate(trials):
            program.put(made)
            if report.compare(f"input {number} of {name}", made, expected, trial()):
                report.check("")
            runs += 1
    print(
        f"inputs: {len(chosen)} cases, {runs} runs through pipes, standard input and readers that wait"
    )


# Terminals

MOST_TYPED = 2000  # a terminal takes about 4,000 bytes at a time
END_OF_INPUT = b"\x04"  # at the start of a line, reported once as an end
LOCAL_MODES = 3


def on_a_terminal(program: Program, made: Made, path: str, at: int) -> model.Answer:
    """Run with one of the files on a terminal, which reports an end after some bytes and then
    continues."""
    ours, theirs = os.openpty()
    try:
        modes = termios.tcgetattr(theirs)
        modes[LOCAL_MODES] &= ~termios.ECHO
        termios.tcsetattr(theirs, termios.TCSANOW, modes)
        os.write(ours, made.files[path][:at] + END_OF_INPUT + made.files[path][at:] + END_OF_INPUT)
        os.unlink(path)
        os.symlink(os.ttyname(theirs), path)
        return ran(program, made.words)
    finally:
        os.unlink(path)
        os.close(ours)
        os.close(theirs)


def may_be_typed(text: bytes) -> bool:
    """Return whether each byte of a text represents itself on a terminal."""
    return len(text) <= MOST_TYPED and all(byte == 10 or 32 <= byte < 127 for byte in text)


def terminals(report: Report, devices: Devices, cases: dict[str, Made], settings) -> None:
    """Test each file of each case on a terminal that reports an end at the start of a line and then
    continues. The run must end there."""
    program, runs = devices.program, 0
    typed = [
        (name, made, path)
        for name, made in cases.items()
        for path in made.files
        if may_be_typed(made.files[path])
    ]
    for name, made, path in typed:
        text, place, wrong = made.files[path], list(made.files).index(path), ""
        starts = [at for at in range(len(text) + 1) if at == 0 or text[at - 1 : at] == b"\n"]
        for at in settings.random.sample(starts, min(len(starts), settings.places)):
            program.put(made)
            got, wanted = on_a_terminal(program, made, path, at), answer_of_ending(made, place, at)
            wrong = wrong or (
                "" if got == wanted else f"with an end behind {at} bytes: {got}, and not {wanted}"
            )
            runs += 1
        report.check(f"a terminal as {path} of {name}", wrong)
    report.runs += runs
    print(f"terminals: {len(typed)} files, {runs} runs to an end that a terminal tells once")
