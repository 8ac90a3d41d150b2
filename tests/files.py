#!/usr/bin/env python3
"""The lister, handed files: a listing for each in the order given, and a line on standard error for one that cannot be opened."""
import os
import subprocess
import tempfile

import harness
from harness import same, start

from worked import E, E_LISTING, NO_SUPPLY


def main():
    with tempfile.TemporaryDirectory() as folder:
        def file(name, data):
            with open(os.path.join(folder, name), "wb") as out:
                out.write(data)
            return name

        def handed(*names):
            done = subprocess.run([*start("lister"), *names], cwd=folder, stdin=subprocess.DEVNULL, capture_output=True, timeout=120)
            return done.returncode, done.stdout.decode(), done.stderr.decode()

        form, refused, long_name = file("e", E), file("no supply", NO_SUPPLY), "x" * 5000
        same("one file", handed(form), (0, E_LISTING, ""))
        same("three files", handed(form, refused, form), (0, E_LISTING + "refused 10 0\n" + E_LISTING, ""))
        same("one that is not there", handed("none", form), (0, E_LISTING, "none: No such file or directory\n"))
        same("no name", handed("", form), (0, E_LISTING, ": No such file or directory\n"))
        same("too long a name", handed(long_name, form), (0, E_LISTING, long_name[:4096] + ": File name too long\n"))
    harness.finish()


if __name__ == "__main__":
    main()
