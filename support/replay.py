"""bash replay [--bare | --page] [LIST]

Makes the calls of a list on a market of the replay program and prints each call with its answer and its records under it, in the
words of the list. LIST is a file, '-' or nothing standard input; a list that people can read (support/calls.py says its form) or the
desk's 44-byte records: which of them it is shows in its bytes. What is printed is a list again, with the answers as comments.

    --bare    prints what the replay program writes, byte for byte
    --page    prints an HTML page that shows the lanes of the connections: bash replay --page LIST > page.html

What is absent is made first, which the first time proves the program (and for --page the calls of the host crate), and that takes
minutes; what was proved and did not change is not proved again. REPLAY names another program than target/bin/replay.

The status is 0 where every call was answered, 1 where the list is none (what is wrong with it is said), 2 where the command or what
it needs is wrong, 3 where an answer is missing or could not be written.
"""
import os
import signal
import subprocess
import sys
from pathlib import Path

import answers
import build
import calls
import page


class Stop(Exception):
    """A message, and the status that the command ends with."""

    def __init__(self, status, message):
        super().__init__(message)
        self.status = status


def arguments(words):
    """The way to print, None where none is named, and the list's name, '-' for standard input. Behind '--' stand only names."""
    end = words.index("--") if "--" in words else len(words)
    options = [word for word in words[:end] if word.startswith("-") and word != "-"]
    names = [word for word in words[:end] if word not in options] + words[end + 1 :]
    strange = [option for option in options if option not in ("--bare", "--page")]
    faults = [f"there is no option {calls.told(option)}" for option in strange]
    if len(options) > 1 and not strange:
        faults.append("one of --bare and --page")
    if len(names) > 1:
        faults.append(f"one list, and {len(names)} are named")
    if not names and sys.stdin is not None and sys.stdin.isatty():
        faults.append("no list is named, and none comes by standard input")
    if faults:
        raise Stop(2, f"{'; '.join(faults)}\n\n{__doc__}")
    return (options or [None])[0], (names or ["-"])[0]


def read(name):
    """A list's bytes, and what to call it."""
    try:
        if name == "-" and sys.stdin is None:
            raise Stop(2, "standard input is closed")
        if name == "-":
            return sys.stdin.buffer.read(), "standard input"
        if not name:
            raise Stop(2, "the list's name is empty")
        if Path(name).is_dir():
            raise Stop(1, f"{name} is a folder, and a list is a file")
        return Path(name).read_bytes(), Path(name).name
    except OSError as e:
        raise Stop(1, f"{name}: {e.strerror}") from None


def records_of(data, name):
    """The list's records, and what is wrong with the first that is none, or None."""
    if calls.is_records(data):
        return calls.split(data)
    try:
        return calls.encode(calls.text_of(data)), None
    except calls.Wrong as e:
        raise Stop(1, f"{name}, {e}") from None


def ran(command, records):
    """What a program writes for these records."""
    try:
        done = subprocess.run(command, input=records, stdout=subprocess.PIPE)
    except OSError as e:
        raise Stop(2, f"{command[0]}: {e.strerror}") from None
    if done.returncode:
        raise Stop(3, f"{command[0]} ended with status {done.returncode}")
    return done.stdout


def answered(program, data, records):
    """What the program writes for the bytes of a list, and its answers, one for each record."""
    wrote = ran([program], data)
    blocks = answers.blocks(wrote.decode("ascii", errors="replace"))
    if len(blocks) * calls.RECORD.size != len(records):
        raise Stop(3, f"{len(records) // calls.RECORD.size} calls, and {len(blocks)} answers were written")
    return wrote, blocks


def write(data):
    """Writes to standard output at once, so that a fault shows here."""
    rest = memoryview(data)
    while rest:
        rest = rest[os.write(sys.stdout.fileno(), rest) :]


def main():
    if sys.stdout is None:
        raise Stop(3, "standard output is closed")
    way, name = arguments(sys.argv[1:])
    data, called = read(name)
    records, wrong = records_of(data, called)
    if way == "--page":
        # before minutes go into a proof
        build.need("cargo", "rustc", "cc")
    program = os.environ.get("REPLAY") or build.program()
    wrote, blocks = answered(program, data if wrong else records, records)
    if way == "--bare":
        shown = wrote
    elif way == "--page":
        readings = answers.readings(ran([build.readings()], records), blocks)
        shown = page.page(called, records, blocks, readings, wrong).encode(errors="replace")
    else:
        shown = answers.listing(calls.lines(records), blocks).encode()
    write(shown)
    if wrong:
        raise Stop(1, f"{called}, {wrong}")
    if not records:
        raise Stop(0, f"{called} has no call")


# a key press that interrupts ends this program without a word
signal.signal(signal.SIGINT, signal.SIG_DFL)
try:
    main()
except (Stop, build.Missing, answers.Differs) as e:
    print(f"replay: {e}", file=sys.stderr)
    sys.exit(e.status)
except BrokenPipeError:
    # a reader that has enough, such as head
    sys.exit(3)
except OSError as e:
    print(f"replay: {e.filename}: {e.strerror}" if e.filename else f"replay: {e.strerror}", file=sys.stderr)
    sys.exit(3)
