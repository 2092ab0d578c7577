#!/usr/bin/env python3
"""Does what docs/GUIDE.md says, in an empty folder: takes its files out of the page, builds them, and compares what they print.

    tools/guide.py CC INCLUDE ARCHIVE [RUNNER..]    the C program; RUNNER runs a program for x86-64 where this machine is another
    tools/guide.py cargo                            the Rust one (NJUNNEMAR_LIB names the archive)
"""
import os
import pathlib
import re
import subprocess
import sys
import tempfile

TOP = pathlib.Path(__file__).resolve().parent.parent


def blocks(language):
    text = (TOP / "docs" / "GUIDE.md").read_text()
    return [b.replace("NJUNNEMAR/", f"{TOP}/") for b in re.findall(rf"^```{language}\n(.*?)^```$", text, re.M | re.S)]


def printed(command, folder):
    done = subprocess.run(command, cwd=folder, stdout=subprocess.PIPE, text=True)
    if done.returncode:
        sys.exit(f"guide: {' '.join(map(str, command))} ended with {done.returncode}")
    return done.stdout


def main():
    if len(sys.argv) < 2 or (sys.argv[1] != "cargo" and len(sys.argv) < 4):
        sys.exit(__doc__)
    expected = blocks("text")[1]
    with tempfile.TemporaryDirectory() as name:
        folder = pathlib.Path(name)
        if sys.argv[1] == "cargo":
            (folder / "src").mkdir()
            (folder / "Cargo.toml").write_text(blocks("toml")[0])
            (folder / "src" / "main.rs").write_text(blocks("rust")[0])
            out = printed(["cargo", "run", "--offline", "--quiet"], folder)
        else:
            compiler, include, archive, *runner = sys.argv[1:]
            (folder / "ping.c").write_text(blocks("c")[0])
            flags = ["-Wall", "-Wextra", "-Werror", "-I", include]
            printed([compiler, *flags, "ping.c", os.path.abspath(archive), "-o", "ping"], folder)
            out = printed([*runner, folder / "ping"], folder)
    if out != expected:
        sys.exit(f"guide: printed\n{out}\nand not\n{expected}")
    print("guide: printed what docs/GUIDE.md says")


main()
