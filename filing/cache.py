"""The kinds of a taxonomy, kept from one run to the next.

Their key is a digest of all that they depend on.
"""

from __future__ import annotations

import json
import os
from functools import lru_cache
from typing import Iterable, List, Optional, Sequence, Tuple

from .cache_room import store, used
from .digests import contents_of_disk, digest_of, digests_of, identity_of
from .kinds import Kinds
from .packages import Package


def key_of(packages: Sequence[Package], entries: Sequence[str]) -> str:
    """Return the key of kinds: a digest of the packages, the entry points and this program."""
    said = {"program": digests_of_program(), "packages": [package.digest().hex() for package in packages], "entries": list(entries)}
    return digest_of(json.dumps(said, sort_keys=True).encode()).hex()


@lru_cache(maxsize=1)
def digests_of_program() -> Tuple[str, ...]:
    """Return the digests of the modules of this program, in the order of their names.

    The modules are loaded already, so a process has one answer.
    """
    own = os.path.dirname(os.path.abspath(__file__))
    paths = [os.path.join(own, name) for name in sorted(os.listdir(own)) if name.endswith(".py")]
    files = []
    for path in paths:
        known = os.stat(path)
        files.append(contents_of_disk(path, known.st_size, path, identity_of(known)))
    return tuple(digest.hex() for digest in digests_of(files))


class Cache:
    """A folder of kept kinds.

    The first line of an entry has the place of each namespace. Digests cover all of it.
    """

    def __init__(self, folder: str) -> None:
        self.folder = folder

    def path(self, key: str) -> str:
        return os.path.join(self.folder, f"{key}.kinds")

    def load(self, key: str, namespaces: Iterable[str]) -> Optional[Kinds]:
        """Return the kept kinds of some namespaces; None if they are not kept, or damaged."""
        found: Kinds = {}
        try:
            with open(self.path(key), "rb") as file:
                digest, _, index = file.readline().rstrip(b"\n").partition(b" ")
                if digest_of(index).hex() != digest.decode():
                    return None
                blocks = json.loads(index)
                start = file.tell()
                for namespace in set(namespaces) & set(blocks):
                    offset, length, known = blocks[namespace]
                    file.seek(start + offset)
                    block = file.read(length)
                    if digest_of(block).hex() != known:
                        return None
                    lines = (line.partition(" ") for line in block.decode().split("\n"))
                    found[namespace] = {name: kind for name, _, kind in lines if kind}
        except (OSError, ValueError, TypeError, RecursionError):
            return None
        used(self.path(key))
        return found

    def store(self, key: str, kinds: Kinds) -> None:
        """Keep kinds for the next filing of the taxonomy."""
        body: List[bytes] = []
        blocks = {}
        offset = 0
        for namespace in sorted(kinds):
            block = "".join(f"{name} {kind}\n" for name, kind in kinds[namespace].items()).encode()
            blocks[namespace] = [offset, len(block), digest_of(block).hex()]
            offset += len(block)
            body.append(block)
        index = json.dumps(blocks).encode()
        store(self.path(key), [digest_of(index).hex().encode(), b" ", index, b"\n", *body])
