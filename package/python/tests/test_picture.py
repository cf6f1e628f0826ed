"""What a browser shows of a report is held against a picture that was looked at: headless Chromium, Debian's chromium.

Fonts and releases of the browser differ, so both are made coarse, and compared by their grey values. `REPORT_PICTURE=new` in the
environment writes the picture anew; who does so looks at it.
"""

import os
import shutil
import subprocess
import sys
import tempfile
import unittest

HERE = os.path.dirname(os.path.abspath(__file__))
TOP = os.path.normpath(os.path.join(HERE, "../../.."))
sys.path.insert(0, os.path.join(TOP, "package/python"))

import iolb
from iolb import report

try:
    from PIL import Image, ImageChops, ImageFilter
except ImportError:
    Image = None

KEPT = os.path.join(HERE, "report.png")
SIZE = (1000, 2100)
COARSE = (250, 525)
TILE = 25
MOST = 10  # the mean difference of grey values, of 255, that is passed over in a tile
BROWSER = shutil.which("chromium")


def page():
    with open(os.path.join(TOP, "examples/matmul.c"), encoding="utf-8") as file:
        made = iolb.bound(file.read())
    schedules = [os.path.join(TOP, "examples/gallery/product-%s.json" % it) for it in ("3x3", "6x9")]
    return report.Report("matmul", made, [16, 32, 64, 128, 256], {"N": 24}, schedules=schedules).page()


def shown(text, folder):
    """A picture of a page as the browser shows it, in grey."""
    path, picture = os.path.join(folder, "page.html"), os.path.join(folder, "page.png")
    with open(path, "w", encoding="utf-8") as file:
        file.write(text)
    words = ["--headless", "--no-sandbox", "--disable-gpu", "--hide-scrollbars", "--user-data-dir=" + os.path.join(folder, "profile")]
    words += ["--window-size=%d,%d" % SIZE, "--screenshot=" + picture, "file://" + path]
    subprocess.run([BROWSER, *words], check=True, capture_output=True, timeout=120)
    return Image.open(picture).convert("L")


def difference(one, other):
    """The greatest of the mean differences of grey values in the tiles of two pictures, both made coarse."""
    small = [it.convert("L").resize(COARSE).filter(ImageFilter.GaussianBlur(3)) for it in (one, other)]
    tiles = ImageChops.difference(*small).resize((COARSE[0] // TILE, COARSE[1] // TILE), Image.BOX)
    return max(tiles.getdata())


@unittest.skipIf(Image is None or BROWSER is None, "chromium or python3-pil isn't installed")
class Picture(unittest.TestCase):
    def test_picture(self):
        text = page()
        with tempfile.TemporaryDirectory() as folder:
            now = shown(text, folder)
            bare = shown(text.replace("</style>", "svg { visibility: hidden }</style>"), folder)
            plain = shown(text[: text.index("<table>")] + text[text.index("</table>") :], folder)
        if os.environ.get("REPORT_PICTURE") == "new":
            now.resize((SIZE[0] // 2, SIZE[1] // 2)).quantize(16).save(KEPT, optimize=True)
        kept = Image.open(KEPT)
        self.assertLess(difference(now, kept), MOST)
        self.assertGreater(difference(bare, kept), MOST, "a page without its picture isn't told apart")
        self.assertGreater(difference(plain, kept), MOST, "a page without its table isn't told apart")


if __name__ == "__main__":
    unittest.main()
