#!/usr/bin/env python3
"""Compare the model in tools/model/model.py with the cases of the repository, or with the built
program.

    compare.py --cases
    compare.py --runs N --seed S --program PATH [--first F] [--keep FOLDER] [--maps KIND]
               [--pieces CLANG] [--refuse CLANG]

With --cases, the model runs each folder of cases/ and examples/ (see tools/model/cases.py), except
those whose standard output goes elsewhere. With --runs, both get random grids and scripts, and
their output, standard error and exit status must agree byte for byte. Run F of seed S is the same
everywhere. KIND is `any`, small grids in many spellings, or `stretches`, long runs
(tools/model/made_stretches.py).

With --pieces, two of three runs are repeated with reads that return few bytes, so that blocks end
anywhere within words. With --refuse, each run is repeated with one of its growths denied: it must
report this, and write exactly what the statements before the reported line write. Each
difference is written to FOLDER as a case whose expected files are the model's, next to a folder
with the program's result. The last line is 'N runs, M differences'.
"""
import argparse
import collections
import os
import random
import sys
import tempfile

import cases
import model
from made_cases import Made, make
from made_stretches import make_stretches

ROOT = os.path.abspath(f"{__file__}/../../..")
BIN = os.environ.get("RCELL_BIN", f"{ROOT}/bin")
MAKERS = {"any": make, "stretches": make_stretches}
PIECES = [
    1,
    2,
    3,
    4,
    5,
    6,
    7,
    8,
    9,
    11,
    13,
    15,
    16,
    17,
    31,
    32,
    33,
    63,
    64,
    65,
    100,
    255,
    1000,
    4095,
]


def read(path, otherwise=b""):
    if not os.path.isfile(path):
        return otherwise
    with open(path, "rb") as file:
        return file.read()


def write(path, content):
    with open(path, "wb") as file:
        file.write(content)


def answer_to_case(case, room):
    folder = f"{room}/{os.path.basename(case)}"
    cases.lay_out(case, folder)
    return model.program(read(f"{case}/args").splitlines(), os.fsencode(folder))


def compare_cases():
    runs = differences = 0
    with tempfile.TemporaryDirectory(prefix="rcell-model-") as room:
        for case in cases.folders():
            if os.path.exists(f"{case}/output"):
                continue
            runs += 1
            expected, answer = cases.expected_of_case(case), answer_to_case(case, room)
            if expected != answer:
                differences += 1
                print(f"{case[len(ROOT) + 1 :]}: stands {expected}, model {answer}")
    print(f"{runs} runs, {differences} differences")
    return differences


class Program:
    """Runs the built program in the current folder. Its output is written to `room`."""

    def __init__(self, path, room):
        self.path, self.room = os.path.abspath(path), room
        self.output, self.told, self.count = (f"{room}/{name}" for name in ("out", "err", "count"))
        opening = os.O_WRONLY | os.O_CREAT | os.O_TRUNC
        self.actions = [
            (os.POSIX_SPAWN_OPEN, 0, "/dev/null", os.O_RDONLY, 0),
            (os.POSIX_SPAWN_OPEN, 1, self.output, opening, 0o600),
            (os.POSIX_SPAWN_OPEN, 2, self.told, opening, 0o600),
        ]
        os.chdir(room)

    def put(self, made: Made):
        for name, content in made.files.items():
            write(name, content)

    def put_one(self, name: str, content: bytes):
        write(name, content)

    def answer(self, words, **more) -> model.Answer:
        environment = {"PATH": "/usr/bin:/bin", **more}
        child = os.posix_spawn(
            self.path, [self.path, *words], environment, file_actions=self.actions
        )
        status = os.waitstatus_to_exitcode(os.waitpid(child, 0)[1])
        return model.Answer(status, read(self.output), read(self.told))

    def answer_refused(self, words, shim: str, at: int) -> tuple[model.Answer, int]:
        """Return the result with growth number `at` denied (0: none), and the number of growths
        requested."""
        got = self.answer(words, LD_PRELOAD=shim, REFUSE_AT=str(at), REFUSE_COUNT=self.count)
        return got, int(read(self.count, b"0"))


def is_told_refusal(expected, got):
    """Return whether the result reports that memory ran out, with the output of the statements
    before that line."""
    return cases.refusal(expected, got) is not None


def answer_of_model(made: Made) -> model.Answer:
    return model.run([(name, made.files[path]) for name, path in made.grids], made.files["script"])


def keep(folder, made: Made, expected, got):
    """Write a run as a case, and the program's result next to it, in FOLDER.got."""
    for place in (folder, f"{folder}.got"):
        os.makedirs(place, exist_ok=True)
    for name, content in made.files.items():
        write(f"{folder}/{name}", content)
    write(f"{folder}/args", b"".join(word + b"\n" for word in made.words))
    for place, answer in ((folder, expected), (f"{folder}.got", got)):
        write(f"{place}/stdout", answer.output)
        write(f"{place}/stderr", answer.told)
        write(f"{place}/status", b"%d\n" % answer.status)


def kind_of(answer):
    """Return how a run ended, without numbers: success, or the words of the error."""
    if not answer.told:
        return "done, with output" if answer.output else "done, without output"
    words = answer.told.decode(errors="replace").rstrip("\n").split(": ", 2)
    source = words[1].partition(":")[0]
    return f"{source if source in ('script', 'arguments', 'output') else 'grid'}: {words[2].split(' at column')[0]}"


def wrong_answer(program, made, expected, shims, choice):
    """Return a wrong result of the program, or None."""
    program.put(made)
    got = program.answer(made.words)
    if got == expected and shims["devices"] and choice.random() < 2 / 3:
        got = program.answer(
            made.words, LD_PRELOAD=shims["devices"], READ_PIECE=str(choice.choice(PIECES))
        )
    if got != expected or not shims["refuse"]:
        return None if got == expected else got
    shim = shims["refuse"]
    _, growths = program.answer_refused(made.words, shim, 0)
    at = choice.randint(1, max(1, growths))
    got, _ = program.answer_refused(made.words, shim, at)
    goes_on = got == expected  # it asked once more, or does without what only saves time
    return None if goes_on or is_told_refusal(expected, got) else got


def compare_runs(settings):
    differences, kinds = 0, collections.Counter()
    kept = os.path.abspath(settings.keep)
    with tempfile.TemporaryDirectory(
        prefix="rcell-runs-", dir="/dev/shm" if os.path.isdir("/dev/shm") else None
    ) as room:
        clangs = {"refuse": settings.refuse, "devices": settings.pieces}
        shims = {name: f"{room}/{name}.so" if clang else "" for name, clang in clangs.items()}
        for name, shim in shims.items():
            if shim:
                cases.build_shim(clangs[name], shim, name)
        program = Program(settings.program, room)
        for number in range(settings.first, settings.first + settings.runs):
            choice = random.Random(f"{settings.seed}:{number}")
            made = MAKERS[settings.maps](choice)
            expected = answer_of_model(made)
            kinds[kind_of(expected)] += 1
            wrong = wrong_answer(program, made, expected, shims, choice)
            if wrong:
                differences += 1
                keep(f"{kept}/{settings.seed}-{number}", made, expected, wrong)
                print(
                    f"run {number} of seed {settings.seed} differs: {kept}/{settings.seed}-{number}",
                    flush=True,
                )
        os.chdir(ROOT)
    for kind, count in kinds.most_common():
        print(f"{count:8} {kind}")
    print(f"{settings.runs} runs, {differences} differences")
    return differences


def main():
    words = argparse.ArgumentParser(
        description=__doc__, formatter_class=argparse.RawDescriptionHelpFormatter
    )
    words.add_argument("--cases", action="store_true")
    words.add_argument("--runs", type=int)
    words.add_argument("--seed", type=int, default=1)
    words.add_argument("--first", type=int, default=0)
    words.add_argument("--program", default=f"{BIN}/rcell")
    words.add_argument("--keep", default=os.path.join(tempfile.gettempdir(), "rcell-differences"))
    words.add_argument("--maps", choices=list(MAKERS), default="any", metavar="KIND")
    words.add_argument("--pieces", metavar="CLANG")
    words.add_argument("--refuse", metavar="CLANG")
    settings = words.parse_args()
    if settings.cases == (settings.runs is not None):
        words.error("either --cases or --runs N")
    return 1 if (compare_cases() if settings.cases else compare_runs(settings)) else 0


if __name__ == "__main__":
    sys.exit(main())
