"""The gallery's page: what it names is there and small, and its lines are those that make it."""
import re
import runpy
import tempfile
import unittest
from pathlib import Path

from in_process import TOP, called

PAGE = (TOP / "docs" / "GALLERY.md").read_text(encoding="utf-8")
tool = runpy.run_path(str(TOP / "tools" / "gallery"))


class Gallery(unittest.TestCase):
    def test_each_section_has_lines_and_pictures(self):
        found = tool["sections"](PAGE)
        self.assertEqual("".join(part for _, part in found), PAGE)
        self.assertEqual(len({name for name, _ in found}), len(found))
        drawn = [(name, part) for name, part in found if tool["LINES"].search(part)]
        self.assertEqual([name for name, _ in drawn], ["changes", "map", "sheet", "section", "table", "lots"])
        for name, part in drawn:
            self.assertTrue(re.search(r"\]\(gallery/", part))
            tool["check_size"](name, part)

    def test_each_picture_is_made_by_a_line(self):
        made = set(re.findall(r"docs/(gallery/\S+)", PAGE))
        self.assertEqual(made, set(re.findall(r"\]\((gallery/[^)]*)\)", PAGE)))
        self.assertEqual(
            {path.name for path in (TOP / "docs" / "gallery").iterdir()}, {Path(path).name for path in made}
        )

    def test_tables_are_there(self):
        for table in tool["TABLE"].findall(PAGE):
            self.assertGreater(len(table.split("\n")), 4)

    def test_a_section_is_made_by_its_lines(self):
        part = "## A table\n\n```sh\necho 'a,b' > table.csv\n./cga_city < /dev/null >> table.csv\n```\n\n```csv\nold\n```\n"
        with tempfile.TemporaryDirectory() as folder:
            program = Path(folder, "program")
            program.write_text("#!/bin/sh\necho 1,2\n")
            program.chmod(0o700)
            self.assertEqual(tool["made"](part, program), part.replace("old", "a,b\n1,2"))

    def test_a_line_that_fails_and_a_heading_that_is_not_there(self):
        with self.assertRaisesRegex(Exception, "a line ended with a status that isn't 0"):
            tool["made"]("```sh\nfalse\n```\n", "/bin/true")
        status, _, said = called("gallery", "nowhere")
        self.assertEqual((status, said.split(":")[1]), (1, " no heading of GALLERY.md ends with `nowhere`"))


if __name__ == "__main__":
    unittest.main()
