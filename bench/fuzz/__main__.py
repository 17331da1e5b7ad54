"""bench/fuzz.sh: SECONDS NUMBER ONLY KEPT. ONLY may be empty; KEPT is the folder for the cases in which something is wrong."""
import collections
import itertools
import os
import pathlib
import random
import shutil
import sys
import tempfile
import time

sys.dont_write_bytecode = True
from rows import TOP, Book

import commands
import sockets
from case import Case, Wrong

COMMANDS = [commands.sift, commands.run, commands.migrate, commands.judge, commands.sift, commands.check, commands.run, commands.compare,
            commands.learn, commands.review, commands.packets, commands.words, commands.world, sockets.relay, commands.sift, sockets.serve]
# After so many cases in which something is wrong no more are tried.
ENOUGH = 10


def tried(program, book, number, place, kept):
    """Tries a case; what is wrong in it, if anything is."""
    command = COMMANDS[place % len(COMMANDS)]
    with tempfile.TemporaryDirectory(prefix="cmdwall-fuzz.") as folder:
        case = Case(program, folder, random.Random(f"{number} {place}"))
        try:
            command(case, book)
            return None
        except Wrong as wrong:
            what = str(wrong)
        left = pathlib.Path(kept) / f"{number}.{place}"
        shutil.rmtree(left, ignore_errors=True)
        shutil.copytree(folder, left)
    repeats = f"# {command.__name__}: {what}\n# The case from its beginning: CMDWALL={program} {TOP / 'bench/fuzz.sh'} 0 {number} {place}\n"
    repeats += "# The calls of the program, of which the last is the one that is wrong:\ncd \"$(dirname \"$0\")\" || exit 2\n"
    (left / "repeat.sh").write_text(repeats + "\n".join(case.calls) + "\n")
    return f"{command.__name__}: {what}; {left}/repeat.sh repeats it"


def main():
    seconds, number, only, kept = sys.argv[1:]
    program, book, counts, wrong = pathlib.Path(os.environ["CMDWALL"]), Book(), collections.Counter(), 0
    end, is_one = time.monotonic() + float(seconds), only.isdigit()
    for place in itertools.count(int(only)) if is_one else itertools.count():
        if time.monotonic() >= end and not (is_one and place == int(only)):
            break
        if only and not is_one and COMMANDS[place % len(COMMANDS)].__name__ != only:
            continue
        what = tried(program, book, number, place, kept)
        counts[COMMANDS[place % len(COMMANDS)].__name__] += 1
        if what:
            wrong += 1
            print(f"fuzz: case {place} of {number}: {what}")
        if wrong == ENOUGH or is_one:
            break
    told = ", ".join(f"{counts[name]} of {name}" for name in sorted(counts))
    print(f"fuzz: number {number}: {sum(counts.values())} cases, {wrong} of them wrong: {told}")
    return 1 if wrong else 0


sys.exit(main())
