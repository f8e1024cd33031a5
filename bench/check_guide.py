#!/usr/bin/env python3
"""Runs the shell sessions of README.md and docs/GUIDE.md with the built program, and compares what each command prints.

Usage: bench/check_guide.py PROGRAM [LIBRARY]
       bench/check_guide.py --list

An indented block of a document is one of these:

  a session    Its first line begins with `$ `. Each such line begins a command. A line that ends in a backslash goes on in the next one,
               and `<<'END'` takes all lines up to END. What stands behind a command is what it prints, output and errors together.
               Where nothing stands there, it prints nothing.
  a file       The line before it ends with a name in code font and a colon, as `apply.c`: does. It is written under that name, where the
               shell stands.
  no session   All others are passed over: Rust, layouts, what a block shows again, and commands without `$ `, which build the repository.

A document's blocks are worked in order by one bash, in a fresh folder. The PATH has PROGRAM as `sync` and the Python of this script as
`python3`. So the functions, variables and files of a block are there for those behind it. The folders `clients` and `hub` are the repository's.
Commands read an empty input. In a printed line `..` matches anything, and a line that is `..` matches any lines, also none. This is for what
depends on the machine.

A block that names `libcs_ffi.a` is run where LIBRARY is given. That and the header then stand in the folder, at their paths in
the repository. The guide is run where the `sqlite3` shell and SQLite for C are there, both with the session extension.

A command that prints something else is told with its place, and fails the run. So does one that takes longer than SECONDS, a `$ ` that
stands in no session, and a document with fewer commands than are named below. With --list the commands are listed, and none is run.
"""
import os
import pathlib
import re
import select
import shutil
import signal
import subprocess
import sys
import tempfile
import time

ROOT = pathlib.Path(__file__).resolve().parent.parent
SECONDS = 60

# The documents, how many commands have to be run of each at least, and whether it needs SQLite.
DOCUMENTS = [("README.md", 8, False), ("docs/GUIDE.md", 40, True)]

FOLDERS = ["clients", "hub"]
PROMPT = "$ "
FILE = re.compile(r"`([\w-]+\.[\w-]+)`:$")
HERE = re.compile(r"<<(['\"]?)(\w+)\1")
LIBRARY = "libcs_ffi.a"
PROBE = """#include <sqlite3.h>
int main(int count, char **words) { return count > 1 ? sqlite3session_create(0, *words, 0) : 0; }
"""


class Command:
    """A command, at a line of its document, and the lines that it has to print."""

    def __init__(self, at, text, wants_library):
        self.at = at
        self.text = text
        self.wants_library = wants_library
        self.wanted = []


class File:
    """A file that the document spells out."""

    def __init__(self, at, name, text):
        self.at = at
        self.name = name
        self.text = text


def blocks_of(lines):
    """The indented blocks: the number of the first line, the line of text before, and the lines."""
    at, before = 0, ""
    while at < len(lines):
        if not (lines[at].startswith("    ") and (at == 0 or not lines[at - 1].strip())):
            before = lines[at].strip() or before
            at += 1
            continue
        end = at
        while end < len(lines) and (lines[end].startswith("    ") or not lines[end].strip()):
            end += 1
        block = [line[4:] for line in lines[at:end]]
        while not block[-1].strip():
            block.pop()
        yield at + 1, before, block
        at = end


def commands_of(first, block):
    """The commands of a session."""
    wants_library = LIBRARY in "\n".join(block)
    at = 0
    while at < len(block):
        command = Command(first + at, block[at][len(PROMPT):], wants_library)
        ends = [found.group(2) for found in HERE.finditer(block[at])]
        at += 1
        while at < len(block) and (ends or command.text.endswith("\\")):
            if ends and block[at] == ends[0]:
                ends.pop(0)
            command.text += "\n" + block[at]
            at += 1
        while at < len(block) and not block[at].startswith(PROMPT):
            command.wanted.append(block[at])
            at += 1
        yield command


def steps_of(name):
    """What a document's blocks want done, in order, and the lines whose `$ ` belongs to no command."""
    lines = (ROOT / name).read_text().splitlines()
    steps, within = [], set()
    for first, before, block in blocks_of(lines):
        if block[0].startswith(PROMPT):
            steps += commands_of(first, block)
            within.update(range(first, first + len(block)))
        elif FILE.search(before):
            steps.append(File(first, FILE.search(before).group(1), "\n".join(block) + "\n"))
    stray = [at for at, line in enumerate(lines, 1) if line.strip().startswith(PROMPT) and at not in within]
    return steps, stray


class Ended(Exception):
    """The shell takes no more commands."""


class Shell:
    """One bash, in a folder of its own. Beside that lies what it is told and what its commands print."""

    def __init__(self, home, program):
        self.folder = home / "folder"
        self.command = home / "command"
        self.printed = home / "printed"
        (home / "bin").mkdir(parents=True)
        self.folder.mkdir()
        for name in FOLDERS:
            (self.folder / name).symlink_to(ROOT / name)
        (home / "bin" / "sync").symlink_to(program)
        (home / "bin" / "python3").symlink_to(sys.executable)
        environment = {"PATH": f"{home / 'bin'}:{os.environ['PATH']}", "HOME": str(home), "LC_ALL": "C",
                       "PYTHONDONTWRITEBYTECODE": "1"}
        self.bash = subprocess.Popen(
            ["bash", "--noprofile", "--norc"], cwd=self.folder, env=environment, start_new_session=True,
            stdin=subprocess.PIPE, stdout=subprocess.PIPE, stderr=subprocess.DEVNULL)

    def run(self, text):
        """What a command prints. The shell writes its status into the pipe when it has ended, and nothing else goes there."""
        self.command.write_text(text + "\n")
        line = f". '{self.command}' > '{self.printed}' 2>&1 < /dev/null; echo $?\n"
        try:
            self.bash.stdin.write(line.encode())
            self.bash.stdin.flush()
        except BrokenPipeError:
            raise Ended("the shell has ended before it") from None
        told, until = b"", time.monotonic() + SECONDS
        while not told.endswith(b"\n"):
            ready, _, _ = select.select([self.bash.stdout], [], [], max(0, until - time.monotonic()))
            if not ready:
                raise Ended(f"takes longer than {SECONDS} seconds")
            piece = os.read(self.bash.stdout.fileno(), 100)
            if not piece:
                raise Ended("ends the shell")
            told += piece
        return self.printed.read_text(errors="backslashreplace")

    def lay(self, file):
        """Writes a file where the shell stands."""
        stands = pathlib.Path(f"/proc/{self.bash.pid}/cwd")
        ((stands if stands.exists() else self.folder) / file.name).write_text(file.text)

    def close(self):
        try:
            os.killpg(self.bash.pid, signal.SIGKILL)
        except ProcessLookupError:
            pass
        self.bash.wait()
        self.bash.stdin.close()
        self.bash.stdout.close()


def fits(wanted, printed):
    """Whether what is printed is what stands there."""
    pattern = "".join(
        r"(?:.*\n)*" if line == ".." else ".*".join(map(re.escape, line.split(".."))) + r"\n"
        for line in wanted)
    return re.fullmatch(pattern, printed) is not None


def shown(lines):
    if not lines:
        return "    (nothing)"
    more = [f"    (and {len(lines) - 40} lines)"] if len(lines) > 40 else []
    return "\n".join(["    " + line[:400] for line in lines[:40]] + more)


def tell(place, command, *told):
    print("\n".join([f"{place}: {command.text.splitlines()[0]}", *told]), file=sys.stderr)


def lay_library(folder, library):
    """The library and its header, where a reader has them who stands in the repository."""
    crate = folder / "crates" / "cs_ffi"
    (crate / "out").mkdir(parents=True)
    (crate / "cs_ffi.h").symlink_to(ROOT / "crates" / "cs_ffi" / "cs_ffi.h")
    (crate / "out" / LIBRARY).symlink_to(library)


def run_document(name, steps, home, program, library):
    """How many commands were run, were passed over for want of the library, and failed."""
    ran = passed = failed = 0
    shell = Shell(home, program)
    try:
        if library:
            lay_library(shell.folder, library)
        for step in steps:
            if isinstance(step, File):
                shell.lay(step)
                continue
            if step.wants_library and not library:
                passed += 1
                continue
            place = f"{name}:{step.at}"
            ran += 1
            try:
                printed = shell.run(step.text)
            except Ended as end:
                tell(place, step, f"  {end}")
                return ran, passed, failed + 1
            if not fits(step.wanted, printed):
                failed += 1
                end = [] if printed.endswith("\n") or not printed else ["  without an end of the last line"]
                tell(place, step, "  wanted:", shown(step.wanted), "  got:", shown(printed.splitlines()), *end)
    finally:
        shell.close()
    return ran, passed, failed


def lacks_sqlite(home):
    """What isn't there of the tools that the guide uses, or None."""
    if not shutil.which("sqlite3"):
        return "no `sqlite3` shell"
    words = ["sqlite3", "-init", "/dev/null", ":memory:", ".session open main probe"]
    asked = subprocess.run(words, stdin=subprocess.DEVNULL, capture_output=True)
    if asked.returncode or asked.stdout or asked.stderr:
        return "no session extension in the `sqlite3` shell"
    (home / "probe.c").write_text(PROBE)
    flags = ["-DSQLITE_ENABLE_SESSION", "-DSQLITE_ENABLE_PREUPDATE_HOOK"]
    words = ["cc", *flags, str(home / "probe.c"), "-lsqlite3", "-o", str(home / "probe")]
    if not shutil.which("cc") or subprocess.run(words, capture_output=True).returncode:
        return "no C compiler, or no SQLite for it with the session extension"
    return None


def list_commands():
    for name, _, _ in DOCUMENTS:
        steps, _ = steps_of(name)
        for step in steps:
            place = f"{name}:{step.at}"
            if isinstance(step, File):
                print(f"{place}: the file {step.name}, {len(step.text.splitlines())} lines")
            else:
                print(f"{place}: {step.text}\n    prints {len(step.wanted)} lines" + (", wants the library" if step.wants_library else ""))
        print(f"{name}: {sum(isinstance(step, Command) for step in steps)} commands")


def main(words):
    if words == ["--list"]:
        list_commands()
        return 0
    if len(words) not in (1, 2):
        print("usage: bench/check_guide.py PROGRAM [LIBRARY]", file=sys.stderr)
        return 2
    program = pathlib.Path(words[0]).resolve()
    library = pathlib.Path(words[1]).resolve() if len(words) == 2 else None
    if not program.is_file() or not os.access(program, os.X_OK):
        print(f"{program} is no program", file=sys.stderr)
        return 1
    failed, told = 0, []
    with tempfile.TemporaryDirectory() as folder:
        home = pathlib.Path(folder).resolve()
        lacking = lacks_sqlite(home)
        for name, least, needs_sqlite in DOCUMENTS:
            steps, stray = steps_of(name)
            for at in stray:
                print(f"{name}:{at}: a `$ ` that stands in no session", file=sys.stderr)
            failed += len(stray)
            if needs_sqlite and lacking:
                told.append(f"{name} isn't run: there is {lacking}")
                continue
            ran, passed, wrong = run_document(name, steps, home / pathlib.Path(name).stem, program, library)
            failed += wrong
            if ran < least:
                print(f"{name}: {ran} commands were run, and {least} have to be", file=sys.stderr)
                failed += 1
            told.append(f"{name}: {ran} commands (at least {least})" + (f", {passed} not run without the library for C" if passed else ""))
    print("\n".join(told))
    if failed:
        return 1
    print("the sessions of the documents: each command prints what stands there")
    return 0


if __name__ == "__main__":
    sys.exit(main(sys.argv[1:]))
