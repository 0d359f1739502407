"""The bytes of a file on the disk, read where they are asked for."""
from __future__ import annotations

import os


class OnDisk:
    """Bytes that are too many to hold: slices of them are."""

    def __init__(self, path: str):
        self.file = open(path, 'rb')
        self.length = os.stat(path).st_size

    def __len__(self):
        return self.length

    def __getitem__(self, part):
        start, stop, _ = part.indices(self.length)
        return os.pread(self.file.fileno(), max(stop - start, 0), start)

    def __enter__(self):
        return self

    def __exit__(self, *_):
        self.file.close()
