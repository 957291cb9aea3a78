#!/usr/bin/env python3
"""Runs packrun where no proof reaches: its exit status, and what it reads and writes by way of the system.

test_program.py [PROGRAM..]: these programs; without any, those that `rt ci` built, one by each of its compilers. What they have to
    print and how they have to end is what docs/COMMANDS.md says, each of its examples too. It prints nothing where all do so."""

import pathlib
import re
import resource
import subprocess
import sys
import typing

TOP = pathlib.Path(__file__).resolve().parent.parent
BUILT = TOP / "crates" / "packrun" / "out"
PAGE = TOP / "docs" / "COMMANDS.md"
SECONDS = 60
# Boxes that no MEMORY holds, in bytes of address space.
BOXES, MEMORY = 200_000, 32_000_000


class Case(typing.NamedTuple):
    """A run, and how it has to end."""

    name: str
    lines: bytes
    printed: bytes
    status: int
    words: tuple[str, ...] = ()


CASES = [
    Case("no input", b"", b"", 0),
    Case("the first lines", b"bin a 100 100 1\nrect one 50 90 1\npack\n", b"ok\nok\n0 one a 0 0 0 50 90 1\npacked 1\n", 0),
    Case("a refused line", b"release 007\n", b"refused: placement 7 is unknown\n", 0),
    Case("a bad line", b"bin a 1 1 1\n\nBin b 1 1 1\nbin c 1 1 1\n", b"ok\nline 3 is bad\n", 2),
    Case("a last line without its end", b"bin a 1 1 1", b"ok\n", 0),
    Case("arguments, which are ignored", b"bin a 1 1 1\n", b"ok\n", 0, ("--help", "pack")),
]


def examples() -> list[Case]:
    """The examples of the page: a line that begins with `>` goes in, and all others come out."""
    cases = []
    for block in re.findall(r"(?m)(?:^    .*\n)+", PAGE.read_text()):
        lines = [line[4:] for line in block.splitlines()]
        taken = "".join(f"{line[2:]}\n" for line in lines if line.startswith(">"))
        printed = "".join(f"{line}\n" for line in lines if not line.startswith(">"))
        status = 2 if lines[-1].startswith("line ") else 0
        cases.append(Case(f"the example of the page that begins with {lines[0]}", taken.encode(), printed.encode(), status))
    return cases


def ends(program: str, wanted: Case) -> bool:
    ran = subprocess.run([program, *wanted.words], input=wanted.lines, capture_output=True, timeout=SECONDS)
    return (ran.stdout, ran.stderr, ran.returncode) == (wanted.printed, b"", wanted.status)


def fails_to_write(program: str) -> bool:
    """Nothing can be written to a full device."""
    with open("/dev/full", "wb") as full:
        ran = subprocess.run([program], input=b"bin a 1 1 1\n", stdout=full, stderr=subprocess.PIPE, timeout=SECONDS)
    return (ran.stderr, ran.returncode) == (b"", 1)


def fails_to_read(program: str) -> bool:
    """A folder cannot be read as a file."""
    ran = subprocess.run(["sh", "-c", 'exec "$0" < /', program], capture_output=True, timeout=SECONDS)
    return (ran.stdout, ran.stderr, ran.returncode) == (b"", b"", 1)


def wants_memory(program: str) -> bool:
    """With little memory so many boxes end the run; those before were taken."""
    lines = b"".join(b"rect %d 1 1 1\n" % i for i in range(BOXES))

    def hold() -> None:
        resource.setrlimit(resource.RLIMIT_AS, (MEMORY, MEMORY))

    ran = subprocess.run([program], input=lines, capture_output=True, timeout=SECONDS, preexec_fn=hold)
    taken, last = ran.stdout.count(b"ok\n"), b"Out of memory.\n"
    return 0 < taken < BOXES and (ran.stdout, ran.stderr, ran.returncode) == (b"ok\n" * taken + last, b"", 3)


def answers_at_once(program: str) -> bool:
    """The answer to a line is there before the next line is written."""
    with subprocess.Popen([program], stdin=subprocess.PIPE, stdout=subprocess.PIPE) as ran:
        assert ran.stdin and ran.stdout
        for line, answer in [(b"bin a 4 4 1\n", b"ok\n"), (b"pack\n", b"packed 0\n"), (b"sections a\n", b"0 0 0 4 4 1\nsections 1\n")]:
            ran.stdin.write(line)
            ran.stdin.flush()
            if ran.stdout.read(len(answer)) != answer:
                ran.kill()
                return False
        ran.stdin.close()
        return ran.wait(SECONDS) == 0 and not ran.stdout.read()


def failures(program: str) -> list[str]:
    """What the program does otherwise than it has to."""
    found = [it.name for it in CASES + examples() if not ends(program, it)]
    others = [fails_to_write, fails_to_read, wants_memory, answers_at_once]
    return found + [it.__name__.replace("_", " ") for it in others if not it(program)]


def main(words: list[str]) -> int:
    programs = words or sorted(str(path) for path in BUILT.glob("packrun*") if path.suffix != ".o" and path.is_file())
    if not programs:
        print(f"test_program.py: there is no program in {BUILT}", file=sys.stderr)
        return 1
    failed = {program: failures(program) for program in programs}
    for program, names in failed.items():
        for name in names:
            print(f"test_program.py: {program}: {name}", file=sys.stderr)
    return 1 if any(failed.values()) else 0


if __name__ == "__main__":
    sys.exit(main(sys.argv[1:]))
