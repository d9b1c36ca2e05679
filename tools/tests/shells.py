"""Shells as a person uses them, on a terminal of their own: what is typed, and what stands on the
line after it."""

from __future__ import annotations

import fcntl
import os
import pty
import shlex
import subprocess
import termios
import threading
import time
from pathlib import Path
from typing import Mapping

from tests.support import ROOT

PATIENCE = 60  # seconds for one answer
TAB = "\t"
DUMP = "\x18\x04"  # C-x C-d, which each shell below binds to writing its line into the file `line`
CLEAR = "\x15"

BASH_RC = """
PS1='> '; PS2='> '; HISTFILE=
bind 'set bell-style none'; bind 'set completion-query-items 0'; bind 'set page-completions off'; bind '"\\e*": insert-completions'
bind -x '"\\C-x\\C-d": printf %s "$READLINE_LINE" >line.new; command mv line.new line'
source {completion}
touch ready
"""
ZSH_RC = """
PS1='> '; unsetopt beep zle_bracketed_paste 2>/dev/null; LISTMAX=0; autoload -Uz compinit; compinit -D -u
dump_line() {{ print -rn -- "$BUFFER" >line.new; command mv line.new line }}
zle -N dump_line; bindkey -e; bindkey '^X^D' dump_line
source {completion}
touch ready
"""
FISH_RC = """
function fish_prompt; echo '> '; end; set -g fish_greeting; set -g fish_autosuggestion_enabled 0
function dump_line; printf %s (commandline) >line.new; command mv line.new line; end
bind \\cx\\cd dump_line
source {completion}
touch ready
"""


class Shell:
    """An interactive shell in a folder, with the completion of the checkout or another one."""

    def __init__(
        self, name: str, folder: Path, environment: Mapping[str, str],
        completion: Path | None = None,
    ):
        self.folder = folder
        rc = {"bash": BASH_RC, "zsh": ZSH_RC, "fish": FISH_RC}[name].format(
            completion=shlex.quote(str(completion or ROOT / "completions" / f"kistalub.{name}"))
        )
        own = folder / "own"
        own.mkdir(exist_ok=True)
        start = own / {"bash": "bashrc", "zsh": ".zshrc", "fish": "start.fish"}[name]
        start.write_text(rc, encoding="utf-8")
        words = {
            "bash": ["bash", "--noprofile", "--rcfile", str(start), "-i"],
            "zsh": ["zsh", "-d", "-i"],
            "fish": ["fish", "-i", "-N", "-C", f"source {start}"],
        }[name]
        variables = {
            **environment, "TERM": "xterm", "ZDOTDIR": str(own), "XDG_CONFIG_HOME": str(own),
            "XDG_DATA_HOME": str(own), "COLUMNS": "200", "LINES": "50",
        }
        self.terminal, other = pty.openpty()
        self.shown = b""
        self.child = subprocess.Popen(
            words, stdin=other, stdout=other, stderr=other, cwd=folder, env=variables,
            preexec_fn=lambda: _own_terminal(),
        )
        os.close(other)
        self._reader = threading.Thread(target=self._read, daemon=True)
        self._reader.start()
        self.wait_for("ready")

    def _read(self) -> None:
        while True:
            try:
                piece = os.read(self.terminal, 4096)
            except OSError:
                return
            if not piece:
                return
            self.shown += piece

    def wait_for(self, name: str) -> None:
        end = time.monotonic() + PATIENCE
        while not (self.folder / name).exists():
            if time.monotonic() > end or self.child.poll() is not None:
                raise TimeoutError(f"no {name} after {PATIENCE} seconds: {self.shown[-2000:]!r}")
            time.sleep(0.01)

    def _is_editing(self) -> bool:
        """Whether the shell takes keys one by one, and not the terminal whole lines."""
        return not termios.tcgetattr(self.terminal)[3] & termios.ICANON

    def type(self, text: str) -> None:
        end = time.monotonic() + PATIENCE
        while not self._is_editing() and time.monotonic() < end:
            time.sleep(0.005)
        os.write(self.terminal, text.encode())

    def run(self, line: str, name: str) -> str:
        """Runs a line that writes a file, and gives what the file has."""
        (self.folder / name).unlink(missing_ok=True)
        self.type(line + "\n")
        self.wait_for(name)
        return (self.folder / name).read_text(encoding="utf-8")

    def after(self, typed: str, keys: str = TAB) -> str:
        """The line after something is typed, then the keys. The line is cleared again."""
        line = self.folder / "line"
        line.unlink(missing_ok=True)
        self.type(typed + keys)
        self.type(DUMP)
        self.wait_for("line")
        text = line.read_text(encoding="utf-8")
        self.type(CLEAR)
        return text

    def end(self) -> None:
        """Ends the shell. What it has started loses its terminal, and ends too."""
        self.child.kill()
        self.child.wait()
        os.close(self.terminal)


def _own_terminal() -> None:
    os.setsid()
    fcntl.ioctl(0, termios.TIOCSCTTY, 0)
