"""A scratch copy of the project's scripts over two crates, a stand-in for `rt` and a stand-in program, for the tests of the scripts."""

import os
import shutil
import subprocess
import tempfile
from pathlib import Path

ROOT = Path(__file__).resolve().parent.parent
SYSTEM = "/usr/bin:/bin"
# Each proof is noted in the file `checks`; the file `while-proving`, where there is one, is run before the program is there.
RT = """#!/bin/sh
case $1 in
run)
    cd ../.. || exit 2
    echo "$2" >>checks
    [ ! -f while-proving ] || . ./while-proving
    mkdir -p "crates/$2/out"; cp program "crates/$2/out/$2"; echo 'rt: ok' ;;
ci) . ./ci ;;
version) echo 'some kit' ;;
esac
"""
# The stand-in program answers with what the file `answer` holds.
PROGRAM = "#!/bin/sh\ncat answer\n"


class Scratch:
    def __init__(self):
        self.holder = tempfile.TemporaryDirectory()
        self.root = Path(self.holder.name) / "project"
        for name in ("list", "tools/run", "tools/have", "tools/release", ".ci/run"):
            self.copy(name)
        self.write("crates.txt", "base:\nlisting: base io\nskewlist: listing\nother: base\n")
        for name in ("base/src/lib.rt", "listing/specs/Lib.antt", "listing/proofs/f/Proof.antt", "other/src/lib.rt"):
            self.write(f"crates/{name}", "")
        for name in ("src/main.rt", "stdin", "stdout", "must-fail/a.edit", "twins/a.twin"):
            self.write(f"crates/skewlist/{name}", "")
        self.write("program", PROGRAM, runs=True)
        self.write("bin/rt", RT, runs=True)
        self.write("answer", "period 9\n")
        self.write(".ci/kit", "some kit\n")

    def close(self):
        self.holder.cleanup()

    def copy(self, name):
        (self.root / name).parent.mkdir(parents=True, exist_ok=True)
        shutil.copy(ROOT / name, self.root / name)

    def write(self, name, text, runs=False):
        path = self.root / name
        path.parent.mkdir(parents=True, exist_ok=True)
        path.write_text(text)
        path.chmod(0o755 if runs else 0o644)

    def start(self, *words, out=subprocess.PIPE, **more):
        env = {**os.environ, "PATH": f"{self.root}/bin:{SYSTEM}", **more}
        env = {name: value for name, value in env.items() if value is not None}
        command = [str(self.root / words[0]), *words[1:]]
        return subprocess.Popen(command, env=env, text=True, cwd="/", stdin=subprocess.DEVNULL, stdout=out, stderr=subprocess.PIPE)

    def run(self, *words, **more):
        """The exit status, and what was written to standard output and standard error."""
        process = self.start(*words, **more)
        out, err = process.communicate(timeout=60)
        return process.returncode, out, err

    def checks(self):
        """How often something was proved."""
        path = self.root / "checks"
        return len(path.read_text().split()) if path.exists() else 0
