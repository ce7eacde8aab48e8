"""Proofs and builds: the prover's lines go to a log; standard error says what is done, how far it is and how long it takes."""
import os
import subprocess
import sys
import time

# What ends sooner is not spoken of, so that a run with nothing to prove says nothing.
QUIET = 2
LAST_LINES = 20


class Failed(Exception):
    """A proof or a build that failed, in words."""


def crates_of(top, name):
    """The crates that a crate is proved with: itself and what it depends on; the toolchain's libraries are not counted."""
    with open(os.path.join(top, "crates.txt"), encoding="utf-8") as file:
        lines = [line.partition("#")[0].partition(":") for line in file]
    # after the name of a static library stands staticlib
    depends = {crate.split()[0]: rest.split() for crate, colon, rest in lines if colon}
    found, left = set(), [name]
    while left:
        crate = left.pop()
        if crate in depends and crate not in found:
            found.add(crate)
            left += depends[crate]
    return found


def read_lines(path):
    """The lines of a log so far; none if there is no log yet."""
    try:
        with open(path, encoding="utf-8", errors="replace") as file:
            return file.read().splitlines()
    except FileNotFoundError:
        return []


class Progress:
    """What is said of a command that takes a while: a line, and on a terminal one more, kept up to date in place."""

    def __init__(self, what, log, crates):
        self.what, self.log, self.crates = what, log, crates
        self.began, self.last = time.monotonic(), None

    def say(self, words):
        """Writes over the line in place."""
        if words != self.last and sys.stderr.isatty():
            print("\r%-40s" % words, end="", file=sys.stderr, flush=True)
        self.last = words

    def go_on(self):
        """Called while the command runs."""
        seconds = time.monotonic() - self.began
        if seconds < QUIET:
            return
        if self.last is None:
            print(self.what, file=sys.stderr, flush=True)
        proved = sum(1 for line in read_lines(self.log) if line.startswith("logic=proved "))
        self.say("%d of %d crates, %d s" % (proved, len(self.crates), seconds))

    def end(self):
        """Called when the command has ended."""
        if self.last is not None and sys.stderr.isatty():
            self.say("ended after %d s" % (time.monotonic() - self.began))
            print(file=sys.stderr, flush=True)


def follow(child, progress):
    """Waits for the command."""
    while True:
        try:
            child.wait(timeout=0.25)
            break
        except subprocess.TimeoutExpired:
            progress.go_on()
    progress.end()


def build(top, what, command, log, crates, prover_log=None, place=None):
    """Runs a command that proves and builds, at the top or at a place. `what` says on standard error what it does, if that takes a while."""
    os.makedirs(os.path.dirname(log), exist_ok=True)
    with open(log, "wb") as lines:
        try:
            child = subprocess.Popen(command, cwd=place or top, stdin=subprocess.DEVNULL, stdout=lines, stderr=subprocess.STDOUT)
        except OSError as error:
            raise Failed("%s cannot be started: %s" % (command[0], error.strerror)) from None
        try:
            follow(child, Progress(what, prover_log or log, crates))
        finally:
            # Still running only if this program was interrupted.
            child.terminate()
            child.wait()
    if child.returncode != 0:
        said = "%s failed with status %d; its lines are in %s" % (" ".join(command), child.returncode, os.path.relpath(log, top))
        raise Failed("\n".join(read_lines(log)[-LAST_LINES:] + [said]))
