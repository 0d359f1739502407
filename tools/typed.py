"""What shells make of words that are typed on a terminal, with a key for completion.

A shell runs on a terminal of its own, in a folder with some files, with the completion of this
repository and no other settings. There `mp4norm` is a function that prints its words. So what the
key put there is seen in the words that the function got.
"""
from __future__ import annotations

import os
import pty
import select
import shutil
import signal
import tempfile
import time

from common import TOP, Room

# Files to be completed, and one in a folder.
FILES = 'movie.mp4', 'segments.m3u8', 'folder/list'
# What the function prints before its words, around each, and behind them.
SAYS = "printf 'got:'; printf '<%s>' {words}; echo ':end'"
BEGIN, END, READY = b'got:', b':end', b'READY>'
# Seconds that a shell may take for a line, and so long it is quiet once it has completed a word.
LIMIT, PAUSE = 20, 0.4
TAB, ENTER = b'\t', b'\r'
# How each shell is begun, and the file with its settings.
FOLDER = os.path.join(TOP, 'completions')
SHELLS = {
    'bash': (['bash', '--noprofile', '--rcfile', '{room}/settings', '-i'], 'settings', f'''
PS1='READY>'
mp4norm() {{ {SAYS.format(words='"$@"')}; }}
. '{FOLDER}/mp4norm.bash'
'''),
    'zsh': (['zsh', '-d', '-i'], '.zshrc', f'''
PROMPT='READY>' RPROMPT= PROMPT_EOL_MARK=
fpath=('{FOLDER}' $fpath)
autoload -U compinit && compinit -u -D
mp4norm() {{ {SAYS.format(words='"$@"')} }}
'''),
    'fish': (['fish', '--no-config', '-i', '-C', 'source {room}/settings'], 'settings', f'''
function fish_prompt; printf 'READY>'; end
set -g fish_greeting
set -g fish_autosuggestion_enabled 0
function mp4norm; {SAYS.format(words='$argv')}; end
source '{FOLDER}/mp4norm.fish'
'''),
}


class Terminal:
    """A shell on a terminal."""

    def __init__(self, words: list[str], folder: str, environment: dict):
        self.process, self.end = pty.fork()
        if self.process == 0:
            os.chdir(folder)
            os.execvpe(words[0], words, environment)
        self.read(READY)

    def read(self, mark: bytes | None = None) -> bytes:
        """What is printed up to a mark; without one, until nothing more comes."""
        got, last = b'', time.monotonic() + (LIMIT if mark else PAUSE)
        while time.monotonic() < last and not (mark and mark in got):
            if select.select([self.end], [], [], PAUSE / 4)[0]:
                try:
                    got += os.read(self.end, 1 << 16)
                except OSError:
                    break
                last = last if mark else time.monotonic() + PAUSE
        return got

    def close(self) -> None:
        os.kill(self.process, signal.SIGKILL)
        os.close(self.end)
        os.waitpid(self.process, 0)


def words_of(said: bytes) -> list[str]:
    """The words that the function got, or what was printed in place of them."""
    if BEGIN not in said or END not in said:
        return [said.decode(errors='replace')]
    return said.partition(BEGIN)[2].partition(END)[0].decode(errors='replace')[1:-1].split('><')


def completed(shell: str, lines: list[str]) -> list[list[str]] | None:
    """Of each line the words that the function gets behind it and the key; nothing without the shell."""
    words, settings, script = SHELLS[shell]
    if not shutil.which(words[0]):
        return None
    with tempfile.TemporaryDirectory() as folder:
        room = Room(folder)
        room.write(settings, script)
        for file in FILES:
            room.write(f'here/{file}', '')
        environment = {**os.environ, 'HOME': folder, 'ZDOTDIR': folder, 'XDG_CONFIG_HOME': folder, 'XDG_DATA_HOME': folder,
                       'XDG_RUNTIME_DIR': folder, 'TERM': 'dumb', 'LC_ALL': 'C.UTF-8', 'INPUTRC': os.devnull}
        terminal = Terminal([it.format(room=folder) for it in words], room.path('here'), environment)
        answers = []
        for line in lines:
            os.write(terminal.end, line.encode() + TAB)
            terminal.read()
            os.write(terminal.end, ENTER)
            said = terminal.read(END)
            answers.append(words_of(said))
            if READY not in said.partition(END)[2]:
                terminal.read(READY)
        terminal.close()
        return answers
