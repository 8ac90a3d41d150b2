#!/usr/bin/env python3
"""The archive for this machine: called by tests/library.c, which is built as C and as C++ through the one header, and by tests/library.rs,
through rust/wiring.rs; and the examples, built as README has them."""
import os
import re
import subprocess
import tempfile

import harness
from harness import ROOT, same

from forms import image_of
from worked import E

STRICT = ["-pedantic", "-Wall", "-Wextra", "-Werror", "-g", "-fsanitize=address,undefined", "-fno-sanitize-recover=all"]
FROM_C = ["tests/library.c", "-x", "none", "target/native/libwiring.a"]
CC, CXX, RUSTC = os.environ.get("CC", "gcc"), os.environ.get("CXX", "g++"), os.environ.get("RUSTC", "rustc")
LANGUAGES = {
    "C": [CC, "-std=c99", "-x", "c", *STRICT, *FROM_C],
    "C++": [CXX, "-std=c++11", "-x", "c++", *STRICT, *FROM_C],
    "Rust": [RUSTC, "--edition", "2021", "-D", "warnings", "-L", "native=target/native", "tests/library.rs"],
}

# How an example is built, the words it is given, and what it makes of form E, by hand: 1..2 segments; with run 3 struck run 4 is all that
# feeds place 3, and there are two segments.
RUNS = [(0, 1, 2), (1, 2, 1), (0, 2, 1)]
EXAMPLES = [
    ([CC, "-std=c99", "-Iinclude", "examples/confirm.c", "target/native/libwiring.a"], [], image_of(E[20:25], RUNS + [(2, 3, 1), (3, 4, 1)], 1, 2)),
    ([RUSTC, "--edition", "2021", "-L", "native=target/native", "examples/strike.rs"], ["3"], image_of(E[20:25], RUNS + [(2, 3, 0), (3, 4, 2)], 2, 2)),
]


def called(*words):
    """Whether the command went well; what it said is shown where it did not."""
    done = subprocess.run(words, cwd=ROOT, stdin=subprocess.DEVNULL, capture_output=True, text=True)
    if done.returncode:
        print(done.stdout + done.stderr)
    return done.returncode == 0, done.stdout


def main():
    same("./archive", called("./archive")[0], True)
    with tempfile.TemporaryDirectory() as room:
        program = os.path.join(room, "library")
        for language, compiler in LANGUAGES.items():
            built, _ = called(*compiler, "-o", program)
            if same(f"built as {language}", built, True):
                well, said = called(program)
                counts = re.search(r"(\d+) passed, (\d+) failed\n$", said)
                same(f"ran as {language}", well and counts is not None, True)
                harness.passed += int(counts[1]) if counts else 0
                harness.failed += int(counts[2]) if counts else 0
        for build, words, wanted in EXAMPLES:
            if same(f"built: {' '.join(build)}", called(*build, "-o", program)[0], True):
                same(f"ran: {build[-1]} {words}", subprocess.run([program, *words], input=E, capture_output=True).stdout, wanted, E)
    harness.finish()


if __name__ == "__main__":
    main()
