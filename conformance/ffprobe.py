"""What ffprobe reads of a file, edits ignored."""
from __future__ import annotations

import json

from trials import printed


def asked(path: str, *words) -> dict:
    return json.loads(printed('ffprobe', '-v', 'quiet', '-ignore_editlist', '1', *words, '-of',
                              'json', path))


def streams(path: str) -> list[dict]:
    return asked(path, '-show_streams')['streams']


def packets(path: str, stream: int, digest: str = 'md5') -> list[tuple]:
    """(dts, pts, size, key, digest of the bytes) of each packet of a stream."""
    said = asked(path, '-select_streams', str(stream), '-show_packets', '-show_data_hash', digest)
    return [(int(it['dts']), int(it['pts']), int(it['size']), 'K' in it['flags'],
             it['data_hash'].lower()) for it in said['packets']]
