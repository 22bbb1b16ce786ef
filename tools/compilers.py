"""The C and C++ compilers that are here, for the tests of include/skew.h and of what is linked with the library."""

import os
import shutil
import subprocess
from pathlib import Path

ROOT = Path(__file__).resolve().parent.parent
ARCHIVE = ROOT / "target" / "staticlib" / "libskew_c.a"
STANDARDS = {"c99": "c", "c11": "c", "c++11": "c++", "c++17": "c++"}
NAMES = {"c": ("cc", "gcc", "clang"), "c++": ("c++", "g++", "clang++")}
WARNINGS = ("-Wall", "-Wextra", "-pedantic", "-Wconversion", "-Werror")


def compilers(language):
    """Each compiler of a language once, however many names it has."""
    found = {os.path.realpath(shutil.which(name)): name for name in reversed(NAMES[language]) if shutil.which(name)}
    return sorted(found.values())


def command(compiler, standard, *words):
    """A compiler's words with all warnings as errors. A source may be taken for either language, whatever its ending."""
    language = STANDARDS[standard]
    casts = ["-Wold-style-cast"] if language == "c++" else []
    return [compiler, f"-std={standard}", "-O2", *WARNINGS, *casts, f"-I{ROOT / 'include'}", "-x", language, *words]


def build(compiler, standard, source, program, *libraries):
    subprocess.run(command(compiler, standard, source, "-x", "none", *libraries, "-o", program), check=True)
