"""Runs the built programs, and counts what passes."""
import concurrent.futures
import functools
import os
import re
import subprocess
import sys
import tempfile

ROOT = os.path.dirname(os.path.dirname(os.path.abspath(__file__)))
sys.path.insert(0, os.path.join(ROOT, "independent"))

passed, failed = 0, 0
SHOWN = 20   # differences; more are counted


@functools.cache
def start(program):
    """The words that start a program, which is built where it has not been."""
    shown = subprocess.run([os.path.join(ROOT, "run"), "--show", program], stdout=subprocess.PIPE, check=True)
    return shown.stdout.decode().splitlines()


def run(program, data, *words):
    """What the program writes for this input."""
    done = subprocess.run([*start(program), *words], input=data, capture_output=True, timeout=120)
    if done.returncode or done.stderr:
        raise RuntimeError(f"{program} ended with status {done.returncode}: {done.stderr!r}, input {data.hex()}")
    return done.stdout


def listings(program, inputs):
    """What the program lists for each input. One process is handed them all as files, since most of a small one's time is its start."""
    with tempfile.TemporaryDirectory() as folder:
        names = [os.path.join(folder, str(at)) for at in range(len(inputs))]
        for name, data in zip(names, inputs):
            with open(name, "wb") as file:
                file.write(data)
        try:
            before, *listed = re.split(r"^(?=ok|refused)", run(program, b"", *names).decode(), flags=re.MULTILINE)
            if not before and len(listed) == len(inputs):
                return listed
        except (RuntimeError, UnicodeDecodeError):
            pass
    return [alone(program, data) for data in inputs]   # to see which input it is that goes wrong


def alone(program, data, *words):
    try:
        return run(program, data, *words).decode("latin-1")
    except RuntimeError as error:
        return str(error)


def words_of(amendments):
    """The words that say these amendments to the keyer."""
    words = []
    for kind, a, b in amendments:
        words += {1: ["pin", str(a)], 2: ["strike", str(a)], 3: ["narrow", str(a), str(b)]}[kind]
    return words


def same(name, got, wanted, data=b""):
    """One comparison; a difference is shown with its input in hexadecimal."""
    global passed, failed
    if got == wanted:
        passed += 1
        return True
    failed += 1
    if failed <= SHOWN:
        print(f"FAILED {name}\n  got    {got!r}\n  wanted {wanted!r}\n  input  {data.hex()}")
    return False


def each(work, cases):
    """work(case) for every case, on all cores, in order."""
    with concurrent.futures.ThreadPoolExecutor(os.cpu_count()) as pool:
        return list(pool.map(work, cases))


def finish():
    print(f"{passed} passed, {failed} failed")
    sys.exit(1 if failed else 0)
