#!/usr/bin/env python3
"""archive.py REPOSITORY WORK: compiles the port's crates under the exports of exports.rattle to WORK/libport.a.

The crates are taken as they were proved last, by `rt ci` or by checks: their built libraries stand in crates/*/out/rlib. The toolchain
compiles only what is proved, so the exports are made a program whose `main` reaches each of them and runs none, and each export
requires what is never so: it then counts as proved, and what the driver hands it is the driver's affair. A stand-in for the compiler behind the
program keeps the module that it is handed. In that module `main` is dropped, each export is given a name that C can call, and the rest
is compiled as for a static library."""

import os
import re
import subprocess
import sys
import tempfile
from pathlib import Path

CRATE = "bench"

# What a parameter of a type is handed in `main`, which never runs it.
BLANKS = {
    "&mut [u64]": "&mut words",
    "&[u64]": "&read",
    "&[u32]": "&places",
    "bool": "false",
    "u32": "0",
    "i32": "0",
    "u64": "0",
    "usize": "0",
    "ProgramGraphRun": "program_graph::inner::fresh::no_run()",
    "&mut ProgramGraphRun": "&mut run",
    "Message": "message_of(0, 0)",
}

STAND_IN = """#!/bin/sh
case " $* " in *" -O3 "*)
    for word in "$@"; do case $word in *.bc) cp "$word" "{kept}" ;; esac; done ;;
esac
exec "{clang}" "$@"
"""

# The head of the program, and the clause of its exports.
HEAD = """// The exports of the bench.
#![tactic(auto)]

ghost use Rattle.std.specs.Prelude.{◌<◌};

"""
NEVER = r"\g<head>\n    requires { 1 < 0 }\n{"

# The head of an export. A function over a type is none: it is reached from the exports, and C cannot call it.
EXPORT = re.compile(
    r"^(?P<head>fn (?P<name>\w+)(?:<'a>)?\((?P<parameters>(?:(?!^fn ).)*?)\)(?: -> (?P<answer>[^\n]+))?) \{$", flags=re.M | re.S
)

# What the toolchain hands its compiler for a static library.
OPTIONS = (
    "-march=x86-64 -mllvm -no-trap-after-noreturn -ffunction-sections -fdata-sections -mllvm -trap-unreachable -mllvm -no-x86-call-frame-opt "
    "-mllvm -disable-machine-licm -mllvm -disable-postra-machine-licm -mllvm -sink-common-insts=false -fPIC -O3"
).split()


def functions(text):
    """Each function of the exports: its name, the types of its parameters, the type of its answer."""
    for found in EXPORT.finditer(text):
        parameters = re.split(r",\s*(?=\w+: )", found["parameters"].strip(" ,\n"))
        types = [part.split(": ", 1)[1].replace("&'a ", "&") for part in parameters if part]
        yield found["name"], types, found["answer"]


def reaching(text):
    """A `main` that has a call of each function whose parameters can be had, behind a condition that is false."""
    lines = []
    had = {}
    waiting = list(functions(text))
    moved = True
    while moved:
        moved = False
        for function in list(waiting):
            name, types, answer = function
            if all(kind in BLANKS or kind in had for kind in types):
                handed = ", ".join(BLANKS.get(kind) or had[kind] for kind in types)
                value = f"r{len(lines)}"
                lines.append(f"        let {value} = {name}({handed});" if answer else f"        {name}({handed});")
                had.setdefault(answer, value)
                waiting.remove(function)
                moved = True
    calls = "\n".join(lines)
    return f"""
fn main() {{
    let never = 0u32;
    if never != 0 {{
        let mut words = [0u64; 8];
        let read = [0u64; 8];
        let places = [0u32; 1];
        let mut run = program_graph::inner::fresh::no_run();
{calls}
    }}
}}
"""


def crates_of(repository):
    """The crates of the library: those that `export` stands on."""
    listed = dict(line.split(":") for line in (repository / "crates.txt").read_text().splitlines() if ":" in line and line[0] != "#")
    return listed["export"].split()


def run(command, **words):
    done = subprocess.run([str(word) for word in command], capture_output=True, text=True, **words)
    if done.returncode:
        sys.exit(f"{command[0]} failed\n{done.stdout}{done.stderr}")
    return done.stdout


def main():
    here = Path(__file__).resolve().parent
    repository, work = Path(sys.argv[1]), Path(sys.argv[2])
    kit = Path(run(["rt", "doc"]).strip()).resolve().parent
    toolchain = kit / "toolchain"
    clang = toolchain / "bin/clang"
    kept = work / "module.bc"
    kept.unlink(missing_ok=True)
    libraries = {name: f"{repository}/crates/{name}/out/rlib/{name}.rlib" for name in crates_of(repository)}
    lacking = [name for name, library in libraries.items() if not os.path.isdir(library)]
    if lacking:
        sys.exit(f"bench: {lacking[0]} is not built: run `rt ci` or tools/dist first")

    # Outside the repository: `rt ci` takes no link in it, and no file of Rattle's beside the crates.
    with tempfile.TemporaryDirectory() as folder:
        tools, crate = Path(folder) / "tools", Path(folder) / "crate"
        (tools / "bin").mkdir(parents=True)
        for name in os.listdir(toolchain / "bin"):
            if name != "clang":
                (tools / "bin" / name).symlink_to(toolchain / "bin" / name)
        (tools / "lib").symlink_to(toolchain / "lib")
        (tools / "bin/clang").write_text(STAND_IN.format(kept=kept, clang=clang))
        (tools / "bin/clang").chmod(0o755)

        exports = (here / "exports.rattle").read_text()
        (crate / "src").mkdir(parents=True)
        (crate / "src/main.rt").write_text(HEAD + EXPORT.sub(NEVER, exports) + reaching(exports))
        words = [kit / "bin/rattle", "build", "--crate-name", CRATE, "src/main.rt", "-L", f"dependency={kit}/rlibs"]
        libraries |= {name: f"{kit}/rlibs/{name}.rlib" for name in ("core", "std")}
        for name, library in libraries.items():
            words += ["--extern", f"{name}={library}"]
        words += ["--antt-project", kit / "rattle/logic/antt-project.json", "--logic-built", kit / "logic_built"]
        run([*words, "--toolchain", tools, "-o", "bench.o"], cwd=crate)

    target = [clang, "--target=x86_64-unknown-linux-gnu"]
    plain = work / "module.ll"
    run(target + ["-x", "ir", kept, "-S", "-emit-llvm", "-O0", "-Xclang", "-disable-llvm-passes", "-o", plain])
    text = plain.read_text()
    text = re.sub(r'^define [^\n]*@(?:main|"bench::main")\([^\n]*\{\n.*?^\}\n', "", text, flags=re.M | re.S)
    text = re.sub(r'^define internal ([^\n]*)@"bench::(\w+)"', r'define \1@"bench::\2"', text, flags=re.M)
    text = re.sub(r'@"bench::(\w+)"', r"@bench_\1", text)
    plain.write_text(text)
    run(target + OPTIONS + ["-c", "-x", "ir", plain, "-o", work / "port.o"])
    archive = work / "libport.a"
    archive.unlink(missing_ok=True)
    run([toolchain / "bin/llvm-ar", "rcs", archive, work / "port.o"])


main()
