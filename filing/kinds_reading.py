"""The kinds of a report's taxonomy: from the cache, or from its schemas.

The schemas of a large module take about as long to read as its metadata takes to join. So a second
process may read them meanwhile. It puts the kinds into the cache, in which this one finds them. If
it does not, this process reads the schemas itself: all lines and statuses are its own.
"""

from __future__ import annotations

import gc
import os
import signal
from contextlib import suppress
from typing import Dict, List, Optional

from .cache import Cache, key_of
from .catalog import CATALOG
from .chain import Chain
from .digests import has_memory_limit, processors
from .finding import Finder
from .kinds import Kinds, kinds_of
from .packages import Package
from .progress import Progress
from .schemas import Reference, read_schemas
from .stopping import SIGNALS, Stopping, end_with_parent

LARGE = 50_000  # values of the metadata: joining them takes ten times as long as a process's start


class KindsReading:
    """Reads the kinds of a report's taxonomy, when they are asked for or before."""

    def __init__(
        self,
        chain: Chain,
        finder: Finder,
        packages: List[Package],
        cache: Optional[str],
        progress: Progress,
    ) -> None:
        """Take a report's metadata, and the folder of a cache.

        The cache gets no kinds if a file of the report may be among the schemas.
        """
        self.chain, self.finder, self.progress = chain, finder, progress
        self.entries = [
            Reference(place, metadata.label, "taxonomy", "")
            for metadata in chain
            for _, place in metadata.taxonomy()
        ]
        own = any(entry.place.local for entry in self.entries)
        own = own or (finder.report in packages and finder.report.has(CATALOG))
        self.cache = None if cache is None or own else Cache(cache)
        self.taxonomy = [package for package in packages if package is not finder.report]
        self.urls = list(dict.fromkeys(entry.place.known().text for entry in self.entries))
        self.key = "" if self.cache is None else key_of(self.taxonomy, self.urls)
        self.found: Optional[Kinds] = None
        self.helper: Optional[int] = None  # the second process, while it may read

    def begin(self) -> None:
        """Have a second process read the schemas, if that makes the run faster.

        With a limit of memory there is only this process, whose memory the limit is for.
        """
        if self.cache is None or self.chain.values.count < LARGE:
            return
        if os.path.exists(self.cache.path(self.key)) or has_memory_limit() or processors() < 2:
            return
        self.progress.say("reading the taxonomy")
        gc.freeze()  # so that neither process copies memory only to look for garbage
        parent = os.getpid()
        before = signal.pthread_sigmask(signal.SIG_BLOCK, SIGNALS)
        try:
            with suppress(OSError):  # the system gives no more processes
                helper = os.fork()
                if not helper:
                    self.help(self.cache, parent)
                self.helper = helper
        finally:
            signal.pthread_sigmask(signal.SIG_SETMASK, before)

    def help(self, cache: Cache, parent: int) -> None:
        """Put the kinds into the cache, as the second process, which ends here without a line."""
        try:
            Stopping().heed_no_more()
            signal.pthread_sigmask(signal.SIG_UNBLOCK, SIGNALS)
            end_with_parent(parent)
            self.read_into(cache)
        finally:
            os._exit(0)  # the other process looks into the cache, whatever the end was

    def kinds(self) -> Kinds:
        """Return the kinds. Refuse a taxonomy that is wrong."""
        if self.found is None:
            self.found = self.read()
        return self.found

    def read(self) -> Kinds:
        """Return the kinds of the cache, or of the schemas if it has none."""
        if self.cache is None:
            return kinds_of(read_schemas(self.entries, self.finder, self.progress))
        self.progress.say("looking into the cache")
        self.wait()
        kinds = self.cache.load(self.key, namespaces_of(self.chain).values())
        return self.read_into(self.cache) if kinds is None else kinds

    def read_into(self, cache: Cache) -> Kinds:
        """Return the kinds of the schemas, and keep them in the cache."""
        kinds = kinds_of(read_schemas(self.entries, self.finder, self.progress))
        # What was changed while it was read is not kept.
        if key_of(self.taxonomy, self.urls) == self.key:
            cache.store(self.key, kinds)
        return kinds

    def wait(self) -> None:
        """Wait until the second process has ended."""
        if self.helper is not None:
            os.waitpid(self.helper, 0)
            self.helper = None

    def end(self) -> None:
        """End the second process, if it still reads."""
        if self.helper is not None:
            with suppress(ProcessLookupError):
                os.kill(self.helper, signal.SIGKILL)
            self.wait()


def namespaces_of(chain: Chain) -> Dict[str, str]:
    """Return the prefixes of all files. Leave values that are not texts to xbrl-json."""
    return {
        prefix: uri
        for metadata in chain
        for prefix, uri in metadata.info_part("namespaces").items()
        if isinstance(uri, str)
    }
