"""Which version this is, and which kit proves it."""

import shutil
import subprocess

from . import __version__
from .proved import ROOT


def told():
    """A release has a page that says both; a clone asks git, and the gate's own pin."""
    page = ROOT / "RELEASE"
    if page.exists():
        return page.read_text()
    return f"mileparcel {__version__}\nsource {described()}\nkit {(ROOT / '.ci' / 'kit').read_text().strip()}\n"


def described():
    if not shutil.which("git"):
        return "unknown: git is missing"
    asked = subprocess.run(["git", "-C", str(ROOT), "describe", "--always", "--dirty", "--tags"], capture_output=True, text=True)
    return asked.stdout.strip() or "unknown: no clone of the repository"
