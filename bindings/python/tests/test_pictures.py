"""The stored pictures are those that the front end draws: python3 test_pictures.py

Where several loops qualify any may be shown, so a change of the search may change a picture; it is then drawn anew and looked at."""

import subprocess
import tempfile
import unittest
from pathlib import Path

ROOT = Path(__file__).resolve().parent.parent.parent.parent
DRAWN = {
    "pipeline": ["examples/pipeline.txt"],
    "pcpimul-30": ["examples/real/pcpimul-30.txt", "--names", "examples/real/pcpimul.names"],
}


class Pictures(unittest.TestCase):
    def test_stored_pictures(self):
        self.assertEqual(sorted(path.stem for path in (ROOT / "examples/pictures").glob("*.svg")), sorted(DRAWN))
        for name, words in DRAWN.items():
            with self.subTest(name), tempfile.TemporaryDirectory() as folder:
                drawn = Path(folder) / "drawn.svg"
                subprocess.run(["./mileparcel", "schedule", *words, "--svg", drawn], cwd=ROOT, stdout=subprocess.DEVNULL, check=True)
                self.assertEqual(drawn.read_bytes(), (ROOT / f"examples/pictures/{name}.svg").read_bytes())


if __name__ == "__main__":
    unittest.main()
