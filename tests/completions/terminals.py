"""How bash, zsh and fish complete a typed line."""
from __future__ import annotations

import os
import pty
import select
import shlex
import signal
import subprocess
import time
from pathlib import Path

SECONDS = 60
# Escape and a inserts all words that the shell would list, Escape and w writes the line into a file.
KEYS = b"\x1ba\x1bw"

BASH = r"""
PS1=
set +o history
for file in @SHARE@/bash-completion/completions/*; do . "$file"; done
bind '"\ea": insert-completions'
write_line() { printf '%s\n' "$READLINE_LINE" > @SAID@.part && mv @SAID@.part @SAID@; READLINE_LINE=; }
bind -x '"\ew": write_line'
"""
ZSH = r"""
PS1=
fpath=(@SHARE@/zsh/site-functions $fpath)
autoload -Uz compinit && compinit -u -D
zle -C all-matches complete-word _generic
zstyle ':completion:all-matches::::' completer _all_matches _complete
zstyle ':completion:all-matches:*' insert true
bindkey '\ea' all-matches
write_line() { print -r -- "$BUFFER" > @SAID@.part && mv @SAID@.part @SAID@; BUFFER= }
zle -N write_line && bindkey '\ew' write_line
"""


def whole(line: str, words: list[str]) -> list[str]:
    """The words as they are in the line: bash and fish leave out what is before the last = or :. A / or = at the end is removed."""
    typed = line.rpartition(" ")[2]
    lead = typed[: max(typed.rfind("="), typed.rfind(":")) + 1]
    return sorted((word if word.startswith(lead) else lead + word).rstrip("/=") for word in words)


class Typed:
    """A shell at a terminal of its own. It first reads its settings, and then lines are typed."""

    def __init__(self, words: list[str], settings: str, share: Path, room: Path, environment: dict[str, str]) -> None:
        self.said = room / f"{words[0]}.line"
        script = room / f"{words[0]}.settings"
        script.write_text(settings.replace("@SHARE@", shlex.quote(str(share))).replace("@SAID@", shlex.quote(str(self.said))), encoding="utf-8")
        self.process, self.terminal = pty.fork()
        if self.process == 0:
            os.chdir(room / "place")
            os.execvpe(words[0], words, environment)
        os.write(self.terminal, f". {shlex.quote(str(script))}\n".encode())

    def written(self) -> str:
        """Waits for the line that the shell writes into its file, and meanwhile reads what it prints."""
        until = time.monotonic() + SECONDS
        while time.monotonic() < until:
            if select.select([self.terminal], [], [], 0.02)[0]:
                os.read(self.terminal, 65536)
            if self.said.exists():
                line = self.said.read_text(encoding="utf-8")
                self.said.unlink()
                return line.rstrip("\n")
        return f"no line was written in {SECONDS} seconds"

    def complete(self, line: str) -> list[str]:
        """The words that replace the last one. Without a match the line stays as it was."""
        os.write(self.terminal, line.encode() + KEYS)
        return whole(line, self.written().removeprefix(line.rpartition(" ")[0]).split())

    def close(self) -> None:
        os.kill(self.process, signal.SIGKILL)
        os.waitpid(self.process, 0)
        os.close(self.terminal)


class Fish:
    """fish prints what it would list. It finds the files by XDG_DATA_DIRS, as those of a package."""

    def __init__(self, room: Path, environment: dict[str, str]) -> None:
        self.place, self.environment = room / "place", environment

    def complete(self, line: str) -> list[str]:
        words = ["fish", "-c", f"complete -C {shlex.quote(line)}"]
        ran = subprocess.run(
            words, cwd=self.place, env=self.environment, stdin=subprocess.DEVNULL, capture_output=True, text=True, timeout=SECONDS, check=False,
        )
        return whole(line, [listed.partition("\t")[0] for listed in (ran.stdout + ran.stderr).splitlines()])

    def close(self) -> None:
        """Nothing: each fish has ended."""


def terminals(share: Path, room: Path, programs: str) -> dict[str, Typed | Fish]:
    """The shells, in the folder `place` of `room`, with the completions below a folder share/."""
    home = room / "home"
    environment = {
        "HOME": str(home), "PATH": f"{programs}:/usr/bin:/bin", "LC_ALL": "C.UTF-8", "TERM": "dumb", "XDG_DATA_DIRS": f"{share}:/usr/share",
    }
    return {
        "bash": Typed(["bash", "--norc", "--noprofile", "-i"], BASH, share, room, environment),
        "zsh": Typed(["zsh", "-f", "-i"], ZSH, share, room, environment),
        "fish": Fish(room, environment),
    }
