"""Tests that the elements of XML are counted exactly, over all files of a run."""

from __future__ import annotations

import sys
import tempfile
import unittest
from pathlib import Path
from typing import Dict
from unittest import mock

TOP = Path(__file__).resolve().parent.parent
sys.path.insert(0, str(TOP))

from filing import allowance, catalog, finding, library, markup, refusals  # noqa: E402
from tests.filing_bounds import HOST, Files, asks, linked, loc, pack, rewrite, schema  # noqa: E402
from tests.filing_bounds import catalog as catalog_of  # noqa: E402

SIZE = markup.SHORTEST


class Elements(unittest.TestCase):
    """A taxonomy in a scratch folder, read with small bounds."""

    def setUp(self) -> None:
        scratch = tempfile.TemporaryDirectory()
        self.addCleanup(scratch.cleanup)
        self.path = Path(scratch.name) / "t.zip"

    def read(self, files: Files, most: int, in_catalogs: int = 100) -> str:
        """Read a taxonomy, and return the line of its refusal, or nothing."""
        pack(self.path, {"META-INF/catalog.xml": catalog_of(rewrite()), **files})
        bound = mock.patch.object(finding, "Elements", lambda: markup.Elements(most, most))
        free = mock.patch.object(allowance, "FREE_WORK", 10**9)
        with bound, free, mock.patch.object(catalog, "MOST_ELEMENTS", in_catalogs):
            try:
                library.kinds([str(self.path)], [HOST + "mod.xsd"])
            except refusals.Refusal as refusal:
                return refusal.line.replace(str(self.path), "t.zip")
        return ""

    def counts(self, files: Files, wanted: int, last: str = "reg/mod.xsd") -> None:
        """Check that files have a number of elements, and which is the last one."""
        self.assertEqual(self.read(files, wanted), "")
        line = f"t.zip/{last}: has more than {wanted - 1} elements, with the XML read before it"
        seen = self.read(files, wanted - 1)
        self.assertEqual(seen, f"{line}: check where the package is from")

    def test_schemas_and_linkbases(self) -> None:
        """Each element counts, as do a prefix, a base and a reference that is followed.

        A prefix counts as two elements, a base and a reference as ten.
        """
        elements = "<xs:annotation><a/><a/></xs:annotation>"
        own = schema("")
        self.counts({"reg/mod.xsd": own}, 5)  # with two prefixes
        self.counts({"reg/mod.xsd": schema(elements)}, 8)
        self.counts({"reg/mod.xsd": schema(elements.replace("<a/>", '<a xmlns="x"/>'))}, 12)
        self.counts({"reg/mod.xsd": schema(elements.replace("<a/>", '<a xml:base="x"/>'))}, 28)
        self.counts({"reg/mod.xsd": linked(["<a/>"] * 4)}, 9)
        many = linked(["<a/>"] * 200_000)
        self.counts({"reg/mod.xsd": many}, 200_005)  # more than are counted together
        two: Dict[str, str] = {"reg/mod.xsd": schema(asks("two.xsd") * 3), "reg/two.xsd": own}
        self.counts({**two}, 5 + 3 + 10 + 5, "reg/two.xsd")
        links = linked([loc(f"two.xsd#{it}") for it in range(5)])
        self.counts({**two, "reg/mod.xsd": links}, 5 + 5 + 10 + 5, "reg/two.xsd")

    def test_catalogs(self) -> None:
        """The elements of catalogs have a bound of their own."""
        entries = catalog_of(rewrite() * 3)  # with one prefix
        files: Files = {"META-INF/catalog.xml": entries, "reg/mod.xsd": schema("")}
        self.assertEqual(self.read(files, 100, 6), "")
        line = "t.zip/META-INF/catalog.xml: has more than 5 elements, with the XML read before it"
        self.assertEqual(self.read(files, 100, 5), f"{line}: check where the package is from")

    def test_length(self) -> None:
        """Elements above those that are free have a length on average."""
        for size, is_taken in ((10 * SIZE, True), (10 * SIZE - 1, False)):
            elements = markup.Elements(1000, 90)
            elements.add(50, 0, "x")
            with self.subTest(size=size):
                if is_taken:
                    elements.add(50, size, "x")
                else:
                    with self.assertRaisesRegex(refusals.Refusal, "more than 90 elements of fewer"):
                        elements.add(50, size, "x")


if __name__ == "__main__":
    unittest.main()
