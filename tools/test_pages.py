#!/usr/bin/env python3
"""Tests of the pages: `python3 tools/test_pages.py`. Each script that a page shows is a file of examples/, which the
gate runs, with the replies that the page shows, and each link leads somewhere."""
import os
import re
import unittest

TOP = os.path.dirname(os.path.dirname(os.path.realpath(__file__)))
PAGES = ["README.md", "CHANGELOG.md", "docs/TUTORIAL.md", "docs/HOWTO.md", "docs/LANGUAGE.md", "docs/OPERATORS.md"]
FOLDERS = {"docs/TUTORIAL.md": "examples/tutorial", "docs/LANGUAGE.md": "examples/language"}


def read(path):
    """The text of a file of the repository."""
    with open(os.path.join(TOP, path), encoding="utf-8") as file:
        return file.read()


def blocks(page):
    """The line before each block of code of a page, and the block."""
    return re.findall(r"^([^\n]*)\n\n```\n(.*?)```$", read(page), re.DOTALL | re.MULTILINE)


def anchors(page):
    """The places of a page to which a link may lead."""
    titles = re.findall(r"^#+ (.*)$", re.sub(r"(?s)^```.*?^```$", "", read(page), flags=re.MULTILINE), re.MULTILINE)
    return {re.sub(r"[^a-z0-9 _-]", "", title.lower()).replace(" ", "-") for title in titles}


class Pages(unittest.TestCase):
    """What a reader sees."""

    def example(self, page, name):
        """The path of the script that a page names, without its ending."""
        for folder in (FOLDERS.get(page, "examples/howto"), "examples"):
            if os.path.exists(os.path.join(TOP, folder, name + ".bidel")):
                return f"{folder}/{name}"
        return self.fail(f"{page}: there is no script {name}")

    def test_scripts_and_replies_are_those_of_the_examples(self):
        for page in PAGES:
            shown = None
            for before, block in blocks(page):
                named = re.fullmatch(r"`([a-z0-9_.]+)\.bidel`:", before)
                if named:
                    shown = self.example(page, named[1])
                    self.assertEqual(block, read(shown + ".bidel"), page)
                elif before in ("answers", "and both together answer"):
                    self.assertIsNotNone(shown, page)
                    self.assertEqual(block, read(shown.replace(".then", "") + ".replies"), page)
                    shown = None

    def test_a_script_stands_on_a_page_only_by_its_name(self):
        """Of the other blocks none has a statement, but the README's, and what LANGUAGE says stands in examples."""
        for page in PAGES:
            for before, block in blocks(page):
                if re.match(r"(CREATE|INSERT|SELECT|SHOW)\b", block) and not before.endswith(".bidel`:"):
                    self.assertTrue(page == "README.md" or "refusals.bidel" in before, (page, before))

    def test_the_script_of_the_readme_is_the_example(self):
        scripts = [block for _, block in blocks("README.md") if re.match(r"(CREATE|SHOW)\b", block)]
        self.assertEqual("".join(scripts), read("examples/first.bidel"))

    def test_each_example_runs_in_the_gate(self):
        named = read("crates/script_rows/args").split("\n")
        for folder, _, names in os.walk(os.path.join(TOP, "examples")):
            for name in names:
                path = os.path.relpath(os.path.join(folder, name), TOP)
                self.assertEqual(read(path), read("crates/script_rows/data/" + path))
                if name.endswith(".bidel") and not name.endswith(".then.bidel"):
                    self.assertIn(path + "+" * os.path.exists(os.path.join(TOP, path[:-6] + ".then.bidel")), named)

    def test_each_link_leads_somewhere(self):
        for page in PAGES:
            for target in re.findall(r"\]\(([^)]+)\)", read(page)):
                file, _, anchor = target.partition("#")
                path = os.path.normpath(os.path.join(os.path.dirname(page), file)) if file else page
                self.assertTrue(os.path.exists(os.path.join(TOP, path)), (page, target))
                if anchor:
                    self.assertIn(anchor, anchors(path), (page, target))


if __name__ == "__main__":
    unittest.main()
