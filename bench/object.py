"""The port's object file: bytes of code, and the stack that each function's deepest chain of calls takes.

Both are read from the machine code. A function's frame is what it pushes and what it takes off the stack pointer; a call adds its return
address. No function of the port calls itself or through a pointer, so the deepest chain is the longest path of calls."""

import re
import shutil
import subprocess


def dump(*words):
    tool = shutil.which("x86_64-linux-gnu-objdump") or "objdump"
    return subprocess.run([tool, *map(str, words)], capture_output=True, text=True, check=True).stdout


class Object:
    def __init__(self, path):
        self.size = {}
        self.data = 0
        for name, size in re.findall(r"^ +\d+ (\.\S+) +([0-9a-f]+) ", dump("-hw", path), flags=re.M):
            if name.startswith(".text."):
                self.size[name.removeprefix(".text.")] = int(size, 16)
            elif name.startswith(".rodata"):
                self.data += int(size, 16)
        self.frame = {}
        self.calls = {}
        self.leaf = {}
        self.length = {}
        self.jumps = set()
        self.read(dump("-drw", "--no-show-raw-insn", path))
        self.deep = {}

    def read(self, text):
        name = None
        for line in text.splitlines():
            head = re.match(r"[0-9a-f]+ <(.*)>:$", line)
            if head:
                name = head[1]
                self.frame[name], self.calls[name], self.leaf[name], self.length[name] = 0, set(), 0, 0
                continue
            if name is None:
                continue
            if re.match(r" +[0-9a-f]+:\t", line):
                self.length[name] += 1
            if re.search(r":\tj\w+ ", line):
                self.jumps.add(name)
            if re.search(r"\tpush ", line):
                self.frame[name] += 8
            taken = re.search(r"\tsub +\$0x([0-9a-f]+),%rsp", line)
            if taken:
                self.frame[name] += int(taken[1], 16)
            below = re.search(r"-0x([0-9a-f]+)\(%rsp", line)
            if below:
                self.leaf[name] = max(self.leaf[name], int(below[1], 16))
            called = re.search(r"R_X86_64_(?:PLT32|PC32)\s+(?:\.text\.)?(.+?)-0x4$", line)
            if called:
                self.calls[name].add(called[1])

    def deepest(self, name):
        """Bytes of stack below the caller's stack pointer, and the chain of calls."""
        if name not in self.frame:
            return 0, []
        if name not in self.deep:
            self.deep[name] = (0, ["itself"])
            below = max((self.deepest(called) for called in self.calls[name]), default=(0, []))
            assert "itself" not in below[1], f"{name} calls itself"
            self.deep[name] = 8 + self.frame[name] + max(below[0], self.leaf[name]), [name, *below[1]]
        return self.deep[name]

    def handing_on(self, name):
        """The instructions of a function that has no jump and one call, all of which hand arguments on and the answer back; else 0."""
        only_calls = name not in self.jumps and len(self.calls.get(name, ())) == 1
        return self.length[name] if only_calls else 0

    def reached(self, names):
        """All functions that these have calls of, and they themselves."""
        seen = set()
        waiting = [name for name in names if name in self.frame]
        while waiting:
            name = waiting.pop()
            if name not in seen:
                seen.add(name)
                waiting += [called for called in self.calls[name] if called in self.frame]
        return seen

    def bytes_of(self, names):
        return sum(self.size.get(name, 0) for name in names)
