"""A shell under a terminal of its own, driven by keys, and what its completions write."""

import os
import pty
import re
import select
import signal
import subprocess
import time

from common import ROOT

SECONDS = 60


class Terminal:
    def __init__(self, words, environment, folder):
        self.child, self.end = pty.fork()
        if self.child == 0:
            os.chdir(folder)
            os.execvpe(words[0], words, environment)
        self.seen = ""

    def __enter__(self):
        return self

    def __exit__(self, *_):
        os.kill(self.child, signal.SIGKILL)
        os.waitpid(self.child, 0)
        os.close(self.end)

    def keys(self, text):
        os.write(self.end, text.encode())

    def until(self, pattern):
        """What the shell shows, with no marks of colour or place, up to a pattern. The test fails if that doesn't come."""
        limit = time.monotonic() + SECONDS
        while True:
            shown = re.sub(r"\x1b\[[0-9;?]*[A-Za-z]|\x1b[=>]|\x1b\][^\x07]*\x07|\x07|\r", "", self.seen)
            found = re.search(pattern, shown)
            if found:
                self.seen = ""
                return shown
            ready = select.select([self.end], [], [], max(0, limit - time.monotonic()))[0]
            assert ready, f"{pattern!r} didn't come in {SECONDS} seconds; seen: {shown!r}"
            try:
                self.seen += os.read(self.end, 65536).decode(errors="replace")
            except OSError as fault:
                raise AssertionError(f"the shell ended; seen: {shown!r}") from fault

    def completed(self, typed):
        """The line at a prompt, after this was typed and Tab. Ctrl-T shows it."""
        self.keys(typed + "\t\x14")
        line = re.search(r"(?m)^\[([^\n]*)\]\n", self.until(r"(?m)^\[[^\n]*\]\n"))[1]
        self.clear()
        return line

    def clear(self):
        self.keys("\x15\r")
        self.until("> $")


def shown_on_a_terminal(words, stopped_at=None, **how):
    """Status and standard output of a run, and what is shown on the terminal that is its standard error. It is stopped when
    these bytes have been shown."""
    ours, theirs = pty.openpty()
    child = subprocess.Popen(words, stderr=theirs, **{"stdout": subprocess.PIPE, **how})
    os.close(theirs)
    shown = b""
    while child.poll() is None or select.select([ours], [], [], 0)[0]:
        if select.select([ours], [], [], 0.2)[0]:
            try:
                shown += os.read(ours, 65536)
            except OSError:
                break
        if stopped_at and stopped_at in shown:
            child.terminate()
            stopped_at = None
    told = child.communicate(timeout=60)[0]
    os.close(ours)
    return child.returncode, (told or b"").decode(), shown


def bash_in(room, *commands):
    """A bash at its first prompt, with the completions of these commands."""
    sources = "".join(f"source '{ROOT}/completions/{it}.bash'\n" for it in commands)
    room.put("rc", "PS1='> '\nunset PROMPT_COMMAND\n" + sources +
             "bind 'set enable-bracketed-paste off' 'set bell-style none' 2> /dev/null\n"
             "shown() { printf '\\n[%s]\\n' \"$READLINE_LINE\"; }\nbind -x '\"\\C-t\": shown'\n")
    return started(room, ["bash", "--noprofile", "--rcfile", room.file("rc"), "-i"])


def zsh_in(room):
    room.put(".zshrc", "PS1='> '; unsetopt beep promptcr promptsp zle_bracketed_paste 2> /dev/null\n"
             f"fpath=('{ROOT}/completions' $fpath)\nautoload -Uz compinit; compinit -u -D\n"
             "shown() { zle -I; print -r -- \"[$BUFFER]\" }\nzle -N shown; bindkey '^T' shown\n")
    return started(room, ["zsh", "-d", "-i"])


def started(room, words):
    shell = Terminal(words, room.with_env(TERM="dumb", HOME=room.path, ZDOTDIR=room.path), room.path)
    shell.until("> $")
    return shell


def fish_lists(room, line, *commands):
    """What fish offers after this line, with the completions of these commands: each word, and what it is for."""
    sources = "; ".join(f"source completions/{it}.fish" for it in commands)
    asked = room.out("fish", "-c", f"{sources}; complete -C '{line}'")
    return [row.split("\t") for row in asked.splitlines()]
