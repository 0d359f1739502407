"""What the compiler says of a crate with some texts in the place of its own, before anything is proved."""
from __future__ import annotations

import re
import shutil
import subprocess
import tempfile

from common import TOP, Room

LIMIT = 600
# The last line where the compiler finds nothing, and no function was to be proved.
COMPILES = re.compile(r'^only=0 .*\n\Z', re.M)


def said_of(module, crate: str, texts: dict[str, str]) -> str:
    """What it says; the libraries below are read as source. The module is that of the toolchain."""
    folder = f'{TOP}/crates/{crate}'
    own = module.Crate(folder, module.root_above(folder), {})
    words = own.words(['--jobs', '1', '--only', ''], as_source=True)
    with tempfile.TemporaryDirectory() as copy:
        for part in ('src', 'specs', 'proofs'):
            shutil.copytree(f'{folder}/{part}', f'{copy}/{part}')
        for path, text in texts.items():
            Room(copy).write('/'.join(path.split('/')[2:]), text)
        ran = subprocess.run([module.RATTLE, 'check', *words], cwd=copy, stdin=subprocess.DEVNULL,
                             stdout=subprocess.PIPE, stderr=subprocess.STDOUT, check=False, timeout=LIMIT)
    return ran.stdout.decode(errors='replace')
