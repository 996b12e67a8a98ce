"""Copies of the repository in which a script may change files, or add a crate that the gate leaves out."""
import contextlib
import os
import pathlib
import shutil
import tempfile

TOP = pathlib.Path(__file__).resolve().parent.parent


def linked(one, other):
    """A second name for a file of a library, or for what was proved, where one can be given: `rt` puts a new file in the place of
    such a one, and writes into none. Into others it writes."""
    path = pathlib.Path(one)
    if path.suffix == ".oantt" or any(folder.suffix == ".rlib" for folder in path.parents):
        with contextlib.suppress(OSError):
            return os.link(one, other)
    return shutil.copy2(one, other)


@contextlib.contextmanager
def copied(prefix):
    """A copy of what `rt` reads, over the libraries that it has built of the repository's crates and what it has kept of their
    checks, for as long as the caller needs it."""
    with tempfile.TemporaryDirectory(prefix=prefix) as place:
        copy = pathlib.Path(place)
        shutil.copytree(TOP / "crates", copy / "crates", ignore=shutil.ignore_patterns("out"))
        for made in [*(TOP / "crates").glob("*/out/rlib"), *(TOP / "crates").glob("*/out/incremental")]:
            shutil.copytree(made, copy / made.relative_to(TOP), symlinks=True, copy_function=linked)
        for name in ("crates.txt", "HANDLES"):
            shutil.copy(TOP / name, copy / name)
        yield copy


def placed(copy, texts):
    """One more crate of a copy. Its files stand in a folder with `.txt` behind their names, since the gate takes each file of the
    language for one of a crate that it proves; the folder's file `line` is its line of `crates.txt`."""
    crate = copy / "crates" / texts.name
    for text in (it for it in texts.rglob("*") if it.is_file() and it.name != "line"):
        file = crate / text.relative_to(texts).with_name(text.name.removesuffix(".txt"))
        file.parent.mkdir(parents=True, exist_ok=True)
        shutil.copy(text, file)
    with (copy / "crates.txt").open("a") as crates:
        crates.write((texts / "line").read_text())
    return crate
