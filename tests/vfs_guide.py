"""Runs the recipe of docs/3-evidence.md for SQL at any commit, as it is printed there."""
import os, shutil, subprocess, sys

from lib import TOP, path_of
import recipes


def prepare(folder, extension):
    """What the recipe needs: the evidence with its sums, the extension, and our package as a wheel has it."""
    shutil.copytree(TOP / "crates/sqrescue/data", folder / "evidence", ignore=lambda _, names: [
        name for name in names if name not in ("ledger.db", "ledger.db-wal")])
    shutil.copy(extension, folder / "sqrescuevfs.so")
    shutil.copytree(TOP / "python/sqrescue", folder / "site/sqrescue", ignore=shutil.ignore_patterns("__pycache__"))
    for path in (extension, os.path.join(path_of("library"), "libsqrescue.so.1")):
        shutil.copy(path, folder / "site/sqrescue")
    (folder / "bin").mkdir()
    (folder / "bin/python3").symlink_to(sys.executable)


def guide(folder, extension):
    """Runs it, and compares what is printed."""
    prepare(folder, extension)
    subprocess.run("sha256sum evidence/* >sums", shell=True, cwd=folder, check=True)
    recipes.run(folder, f"{folder}/bin", recipes.section("3-evidence.md", "## SQL at any commit"),
                {"PYTHONPATH": f"{folder}/site"})
