#!/usr/bin/env python3
r"""Run the proved program on each folder of cases/ and examples/, and again with each growth and
each write denied in turn.

A case is a folder with the files that the program reads and
    args     its arguments, one per line
    stdout   its expected output; without this file: nothing
    stderr   its expected message; without this file: nothing
    status   its exit status; without this file: 0
    output   the destination of standard output instead of a pipe that is read: a path, or `closed`
             for a closed pipe
    more     lines FILE COUNT TEXT: the text, in which \n, \r and \x20 are bytes, is appended to the
             file COUNT times
    refused  lines SOURCE LINE BYTES: the error reported and the bytes written if growths are
    denied;
             exactly these lines must occur; without this file: those that the model allows
If a growth is denied, the output must be exactly the output of the statements before the reported
line, as computed by tools/model/model.py. Some runs must report an error although a pipe that they
read stays open. The last line is 'N passed, M failed'.
"""
import glob
import os
import re
import resource
import shutil
import subprocess
import sys
import tempfile

import model

ROOT = os.path.abspath(f"{__file__}/../../..")
BIN = os.environ.get("RCELL_BIN", f"{ROOT}/bin")
PROGRAM = f"{BIN}/rcell"
OUR_OWN = ("args", "stdout", "stderr", "status", "output", "more", "refused")
LONGEST_LIMITED = 256  # a longer output is not tested with each size
LONGEST_SCRIPT = 1 << 20
SECONDS_OPEN = 60  # maximum time of a run whose input stays open
NO_MEMORY = re.compile(rb"rcell: ([^:]+):([0-9]+): no memory\n")


def read(path, otherwise=b""):
    if not os.path.isfile(path):
        return otherwise
    with open(path, "rb") as file:
        return file.read()


def more_of(case):
    """Yield what is appended to files of the case: names of files, each with bytes."""
    for name, count, text in (line.split() for line in read(f"{case}/more").decode().splitlines()):
        yield name, text.encode().decode("unicode_escape").encode("latin-1") * int(count)


def lay_out(case, folder):
    """Write the files of the case to a new folder."""
    shutil.copytree(case, folder, ignore=shutil.ignore_patterns(*OUR_OWN))
    for name, text in more_of(case):
        with open(f"{folder}/{name}", "ab") as file:
            file.write(text)


def output_to(place):
    """Return the file to which standard output is written, or a pipe that is read."""
    if not place:
        return subprocess.PIPE
    if place == "closed":
        reading, writing = os.pipe()
        os.close(reading)
        return os.fdopen(writing, "wb")
    return open(place, "wb")


def folders():
    """Return the folders of cases: all of cases/, and those in examples/ that contain arguments."""
    return sorted(
        glob.glob(f"{ROOT}/cases/*")
        + [os.path.dirname(it) for it in glob.glob(f"{ROOT}/examples/*/args")]
    )


def words_of(case):
    return read(f"{case}/args").splitlines()


def expected_of_case(case):
    return model.Answer(
        int(read(f"{case}/status", b"0")), read(f"{case}/stdout"), read(f"{case}/stderr")
    )


def run_to(output, case, folder, restore_signals=True, **more):
    """Run the program in the folder with the arguments of the case, and with a file or pipe as
    standard output."""
    environment = {"PATH": "/usr/bin:/bin", **more}
    ran = subprocess.run(
        [PROGRAM.encode(), *words_of(case)],
        cwd=folder,
        stdin=subprocess.DEVNULL,
        stdout=output,
        stderr=subprocess.PIPE,
        timeout=120,
        env=environment,
        restore_signals=restore_signals,
    )
    return model.Answer(ran.returncode, ran.stdout or b"", ran.stderr)


def run(case, folder, **more):
    """Run the program with the arguments of the case and return its result."""
    output = output_to(read(f"{case}/output").decode().strip())
    answer = run_to(output, case, folder, **more)
    if output is not subprocess.PIPE:
        output.close()
    return answer


def refusal(wanted, got):
    """Return the source and line where memory ran out, and the number of bytes written by then.
    Return None if this is not reported, if the run has no such source, or if the output is not
    exactly the output of the statements before the line. `wanted` is the result of the run with
    enough memory."""
    told = NO_MEMORY.fullmatch(got.told)
    if got.status != 3 or not told:
        return None
    source, line = told[1], int(told[2])
    is_place = (
        source in (b"arguments", b"script", *wanted.grids)
        if line == 0
        else source == b"script" and line in dict(wanted.parts)
    )
    before = b"".join(output for at, output in wanted.parts if at < line)
    return (source.decode(), line, len(before)) if is_place and got.output == before else None


def refused_in_turn(case, folder, shim, room, wanted):
    """Deny growth 1, 2, .. until a run requests fewer. Return their number, and the error, or ''.

    If the standard library requests a denied growth again, or the growth only saves time (the
    numbers with which the combinations of many maps are first sorted), the run does all its work.
    """
    count, found = f"{room}/count", set()
    for at in range(1, 100000):
        got = run(case, folder, LD_PRELOAD=shim, REFUSE_AT=str(at), REFUSE_COUNT=count)
        asked = int(read(count) or b"0")
        if asked < at:
            return (
                at - 1,
                wrong_refusals(case, found)
                if got == wanted
                else f"growth {at} was not asked for, and yet {got}",
            )
        told = refusal(wanted, got)
        if told:
            found.add(told)
        elif got != wanted:
            return at, f"with growth {at} refused: {got}"
    return at, "no run ended without a refusal"


def wrong_refusals(case, found):
    """Return the error in where growths were denied, if the case states where."""
    lines = (line.split() for line in read(f"{case}/refused").decode().splitlines())
    wanted = {(source, int(line), int(count)) for source, line, count in lines}
    return (
        f"refused at {sorted(found)}, and not at {sorted(wanted)}"
        if wanted and found != wanted
        else ""
    )


def run_limited(case, folder, size):
    """Run the program with a file of limited size as standard output, and the signal of a full file
    ignored."""
    soft, hard = resource.getrlimit(resource.RLIMIT_FSIZE)
    with tempfile.TemporaryFile() as output:
        resource.setrlimit(resource.RLIMIT_FSIZE, (size, hard))
        try:
            got = run_to(output, case, folder, restore_signals=False)
        finally:
            resource.setrlimit(resource.RLIMIT_FSIZE, (soft, hard))
        output.seek(0)
        return model.Answer(got.status, output.read(), got.told)


def limited_in_turn(case, folder, wanted):
    """Run the case with an output that accepts 0, 1, .. bytes. Return the number of sizes, and the
    error, or ''."""
    sizes = range(len(wanted.output) if len(wanted.output) <= LONGEST_LIMITED else 0)
    for size in sizes:
        got = run_limited(case, folder, size)
        if got != model.Answer(
            4, wanted.output[:size], b"rcell: output:0: write failed after %d bytes\n" % size
        ):
            return size + 1, f"with an output of {size} bytes: {got}"
    return len(sizes), ""


def judge(case, room, shim):
    """Return the error of a case, or '', and the numbers of growths and writes that were denied in
    turn."""
    folder = f"{room}/folder"
    shutil.rmtree(folder, ignore_errors=True)
    lay_out(case, folder)
    wanted, got = expected_of_case(case), run(case, folder)
    if got != wanted:
        return f"{got}, and not {wanted}", 0, 0
    if wanted.status:
        return "", 0, 0
    wanted = model.program(words_of(case), os.fsencode(folder))
    if got != wanted:
        return f"by the model {wanted}", 0, 0
    grown, wrong = refused_in_turn(case, folder, shim, room, wanted)
    cut, wrong_output = limited_in_turn(case, folder, wanted)
    return wrong or wrong_output, grown, cut


def open_inputs():
    """Yield errors that a run must report although its standard input stays open: what it is, the
    arguments, the bytes on standard input, and the message."""
    rejected = f"{ROOT}/cases/cell-is-no-number"
    good, bad = f"g={ROOT}/cases/five-commands/g.txt", f"g={rejected}/g.txt"
    told, too_long = read(f"{rejected}/stderr"), b"rcell: script:0: script too long\n"
    yield "script too long", ["/dev/stdin", good], b"#" * (LONGEST_SCRIPT + 1), too_long
    yield "script after a rejected grid", ["/dev/stdin", bad], b"", told
    yield "grid after a rejected grid", [f"{rejected}/script", bad, "h=/dev/stdin"], b"", told
    yield "rejected grid", [f"{rejected}/script", "g=/dev/stdin"], read(f"{rejected}/g.txt"), told


def wrong_open_input(words, given, told):
    """Return the error if the run reads more than it needs, and so waits for more."""
    with subprocess.Popen(
        [PROGRAM, *words], stdin=subprocess.PIPE, stdout=subprocess.DEVNULL, stderr=subprocess.PIPE
    ) as ran:
        try:
            ran.stdin.write(given)
            ran.stdin.flush()
            status = ran.wait(timeout=SECONDS_OPEN)
        except subprocess.TimeoutExpired:
            ran.kill()
            return "the run waits for more"
        got = status, ran.stderr.read()
        return "" if got == (1, told) else f"{got}, and not {(1, told)}"


class Count:
    """Counts passed and failed checks, and prints the errors."""

    def __init__(self):
        self.passed = self.failed = 0

    def add(self, what, wrong):
        self.passed, self.failed = self.passed + (not wrong), self.failed + bool(wrong)
        if wrong:
            print(f"{what}: FAILED: {wrong}", flush=True)


def build_shim(clang, path, name="refuse"):
    subprocess.run(
        [
            clang,
            "--target=x86_64-unknown-linux-gnu",
            "-O1",
            "-fPIC",
            "-shared",
            "-nostdlib",
            "-fuse-ld=lld",
            "-o",
            path,
            f"{ROOT}/tools/hostile/{name}.c",
        ],
        check=True,
    )


def main():
    passed = failed = 0
    with tempfile.TemporaryDirectory(prefix="rcell-cases-") as room:
        shim = f"{room}/refuse.so"
        build_shim(sys.argv[1], shim)
        for case in folders():
            wrong, grown, cut = judge(case, room, shim)
            refusals = f", {grown} growths refused in turn" * bool(
                grown
            ) + f", an output of {cut} sizes" * bool(cut)
            print(
                f"{case[len(ROOT) + 1 :]}: {'FAILED: ' + wrong if wrong else 'ok' + refusals}",
                flush=True,
            )
            passed, failed = passed + (not wrong), failed + bool(wrong)
    for what, *how in open_inputs():
        wrong = wrong_open_input(*how)
        print(f"{what}, and its pipe stays open: {'FAILED: ' + wrong if wrong else 'ok'}")
        passed, failed = passed + (not wrong), failed + bool(wrong)
    print(f"{passed} passed, {failed} failed")
    return 1 if failed else 0


if __name__ == "__main__":
    sys.exit(main())
