"""Where the files stand that are looked at."""
import pathlib

ROOT = pathlib.Path(__file__).resolve().parent.parent.parent
CRATES = ROOT / "crates"


def crates(names=()):
    """The folders of the crates that are named, or of all."""
    return [CRATES / name for name in names] or sorted(path for path in CRATES.iterdir() if (path / "src").is_dir())


def sources(crate):
    """The source files of a crate."""
    return sorted((crate / "src").rglob("*.rt"))


def shown(text):
    """A text with its paths as they are shown: from the repository's top."""
    return str(text).replace(f"{ROOT}/", "")
