"""gallery: a page for each scenario of a folder, and an index."""

import json
import os
import re
import tempfile
import unittest

from common import bench, example, example_path
from test_page import data_of


class Gallery(unittest.TestCase):
    def test_a_folder(self):
        with tempfile.TemporaryDirectory() as folder, tempfile.TemporaryDirectory() as out:
            for name in ("write-cut.json", "sends-twice.json", "campaign-block.json"):
                with open(os.path.join(folder, name), "w", encoding="utf-8") as file:
                    json.dump(example(name), file)
            made = os.path.join(out, "pages")
            status, written, err = bench("gallery", folder, "-o", made)
            self.assertEqual((status, written), (0, os.path.join(made, "index.html") + "\n"))
            self.assertIn("no page of campaign-block.json", err)
            files = ["index.html", "sends-twice-guard.html", "sends-twice.html", "write-cut.html"]
            self.assertEqual(sorted(os.listdir(made)), files)
            with open(os.path.join(made, "index.html"), encoding="utf-8") as file:
                index = file.read()
            self.assertEqual(re.findall(r'href="([^"]+\.html)"', index), ["sends-twice.html", "sends-twice-guard.html", "write-cut.html"])
            self.assertEqual(re.findall(r"status (\d):", index), ["7", "0", "0"])
            with open(os.path.join(made, "write-cut.html"), encoding="utf-8") as file:
                page = file.read()
            _, alone, _ = bench("page", example_path("write-cut.json"))
            self.assertEqual(data_of(page)["parts"], data_of(alone)["parts"])

    def test_mistakes(self):
        with tempfile.TemporaryDirectory() as folder:
            self.assertEqual(bench("gallery", folder, "-o", os.path.join(folder, "out"))[0], 2)
            self.assertEqual(bench("gallery", os.path.join(folder, "none"), "-o", folder)[0], 2)
            self.assertEqual(bench("gallery", os.path.dirname(example_path("x")), "-o", "/proc/none")[0], 2)


if __name__ == "__main__":
    unittest.main()
