#!/usr/bin/env python3
"""Tests that the documents agree with what stands here. Run from anywhere: python3 tests/test_docs.py"""

import re
import unittest
from pathlib import Path

ROOT = Path(__file__).resolve().parent.parent


def pages():
    """The pages of the repository."""
    return [page for page in ROOT.rglob("*.md") if "target" not in page.relative_to(ROOT).parts]


def crates():
    """What crates.txt lists: each crate and those that it stands over."""
    lines = (line.split("#")[0] for line in (ROOT / "crates.txt").read_text().splitlines())
    rows = (line.split(":") for line in lines if line.strip())
    return {name.split()[0]: over.split() for name, over in rows}


def crate_table():
    """What the table of crates in ARCHITECTURE.md says: each crate and those that it stands over."""
    page = (ROOT / "docs/ARCHITECTURE.md").read_text()
    table = page.split("| crate | over | holds |\n|---|---|---|\n")[1].split("\n\n")[0]
    rows = ([cell.strip() for cell in row.strip("|").split("|")] for row in table.splitlines())
    return {name: over.split() for name, over, _ in rows}


class Documents(unittest.TestCase):
    """README and the pages of docs/, examples/ and second/."""

    def test_crates(self):
        """ARCHITECTURE's table is crates.txt, row by row."""
        self.assertEqual(list(crate_table().items()), list(crates().items()))

    def test_links(self):
        """Every link leads to a file that is here, and to a heading that it has."""
        links = 0
        for page in pages():
            for link in re.findall(r"\]\(([^)]+)\)", page.read_text()):
                name, _, heading = link.partition("#")
                file = page.parent / name if name else page
                self.assertTrue(file.exists(), f"{page.name}: {link}")
                if heading:
                    headings = re.findall(r"^#+ (.*)$", file.read_text(), re.M)
                    anchors = [re.sub(r"[^\w -]", "", text.lower()).replace(" ", "-") for text in headings]
                    self.assertIn(heading, anchors, f"{page.name}: {link}")
                links += 1
        self.assertGreater(links, 10)


if __name__ == "__main__":
    unittest.main()
