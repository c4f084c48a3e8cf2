"""What bash replay needs: the replay program, and for a page the program that reads a store after each call. Both are made where they are
absent or older than a source. rt proves no crate again that did not change."""
import os
import shutil
import subprocess
import sys
import time
from pathlib import Path

ROOT = Path(__file__).resolve().parent.parent
TARGET = ROOT / "target"
# the archives that the host crate links for the merge alone
ARCHIVES = ["owned", "exports"]


class Missing(Exception):
    status = 2


def sources():
    """The times of the latest changes below crates/, but for what rt makes there and hidden files. A folder's own time tells of a file that
    came or went; rt makes its out/ in a crate's folder, so that one's tells nothing."""
    yield (ROOT / "crates.txt").stat().st_mtime
    crates = ROOT / "crates"
    for folder, folders, names in os.walk(crates):
        folders[:] = [name for name in folders if name != "out" and not name.startswith(".")]
        if Path(folder).parent not in (ROOT, crates):
            yield os.stat(folder).st_mtime
        for name in names:
            if not name.startswith("."):
                yield os.stat(os.path.join(folder, name)).st_mtime


def fresh(made, since):
    return made.is_file() and made.stat().st_mtime >= since


def need(*tools):
    """Stops where one of these tools is not at hand."""
    absent = [tool for tool in tools if shutil.which(tool) is None]
    if absent:
        raise Missing(f"not on the PATH: {', '.join(absent)} (README.md, 'Run it', says what each is for)")


def run(command, folder):
    """Runs a command and shows what it prints as messages."""
    done = subprocess.run(command, cwd=folder, stdout=sys.stderr, stdin=subprocess.DEVNULL)
    if done.returncode:
        raise Missing(f"{' '.join(command)} ended with status {done.returncode}")


def prove(kind, made, why):
    """Has rt prove and make what takes minutes, a path for each name, and says why. What is made is as old as the sources that were read: one
    that changes meanwhile is newer."""
    need("rt")
    began = time.time()
    command = ["bash", "support/made", kind, *made]
    print(f"replay: {why}: {' '.join(command)}", file=sys.stderr, flush=True)
    run(command, ROOT)
    for path in made.values():
        os.utime(path, (began, began))


def program():
    """The path of the replay program."""
    made = TARGET / "bin/replay"
    if not fresh(made, max(sources())):
        why = "the program is older than a source" if made.exists() else "there is no program yet, and to prove it takes minutes"
        prove("program", {"replay": made}, why)
    return str(made)


def readings():
    """The path of the program that prints a store's reading after each call: host/examples/readings."""
    since = max(sources())
    archives = {name: TARGET / f"staticlib/lib{name}.a" for name in ARCHIVES}
    absent = {name: path for name, path in archives.items() if not fresh(path, since)}
    if absent:
        prove("archive", absent, "a page needs the calls of the host crate, and to prove them takes minutes the first time")
    build = ["cargo", "build", "--quiet", "--offline", "--locked", "--target-dir", "target", "--no-default-features"]
    run([*build, "--example", "readings"], ROOT / "host")
    return str(ROOT / "host/target/debug/examples/readings")
