"""Programs that start once and answer one request after the other, for `run --server`."""
from __future__ import annotations

import json
import os
import select
import subprocess
import time

from trials import Room

# Seconds in which a server ends once its standard input has.
LIMIT = 5


class Server:
    """A program that is started with the word `--server` at its first request, and again behind one
    that it didn't answer. What it puts and says are files of a room."""

    def __init__(self, program: str, room: Room):
        self.program, self.room, self.process = program, room, None

    def run(self, words: list[str], given: str, limit: int) -> tuple:
        """Status, standard error and standard output of one request, for which a file is standard
        input. Where there is no answer, what came instead has the place of the status."""
        files = {'stdout': 'put', 'stderr': 'said'}
        for name in files.values():
            self.room.write(name, b'')
        paths = {stream: self.room.path(name) for stream, name in files.items()}
        answer = self.answer({'arguments': words, 'stdin': given, **paths}, limit)
        try:
            status = int(json.loads(answer)['status'])
        except (ValueError, TypeError, KeyError):
            status = 'none: ' + (f'the server said {answer!r:.80}' if answer else self.ended())
            self.kill()
        return status, self.room.read('said'), self.room.read('put')

    def answer(self, request: dict, limit: int) -> bytes:
        """The line that the server puts for a request; nothing, if it ends."""
        if self.process is None:
            self.process = subprocess.Popen([self.program, '--server'], bufsize=0,
                                            stdin=subprocess.PIPE, stdout=subprocess.PIPE)
        try:
            self.process.stdin.write(json.dumps(request).encode() + b'\n')
        except BrokenPipeError:
            return b''
        line, end = b'', time.monotonic() + limit
        while not line.endswith(b'\n'):
            output = self.process.stdout.fileno()
            if not select.select([output], [], [], max(0, end - time.monotonic()))[0]:
                self.kill()
                raise subprocess.TimeoutExpired(self.program, limit)
            part = os.read(output, 2**16)
            line += part
            if not part:
                break
        return line

    def ended(self) -> str:
        """How a server ended that puts nothing any more."""
        try:
            return f'the server ended with status {self.process.wait(LIMIT)}'
        except subprocess.TimeoutExpired:
            return 'the server closed its standard output'

    def kill(self) -> None:
        self.process.kill()
        self.close()

    def close(self) -> None:
        """Ends the standard input of the server, which ends it."""
        if self.process is None:
            return
        self.process.stdin.close()
        try:
            self.process.wait(LIMIT)
        except subprocess.TimeoutExpired:
            self.process.kill()
            self.process.wait()
        self.process.stdout.close()
        self.process = None
