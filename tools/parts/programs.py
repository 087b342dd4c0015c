"""What the Python tools share in running the programs that `tools/programs` builds."""

import os
import pathlib
import re
import subprocess
import sys
from collections import namedtuple

ROOT = pathlib.Path(__file__).resolve().parent.parent.parent
SECONDS_ALLOWED = 60

# "`p` writes ... `p 0`, flow, length, handle, tag, leapt (0 or 1), clock"; the plain engine's tags have a sign
PICKED = re.compile(rb"p 0 ([0-9]+) ([0-9]+) ([0-9]+) (-?[0-9]+) ([01]) ([0-9]+)")
Pick = namedtuple("Pick", "flow length handle tag leapt clock")


def built(name):
    """Where `tools/programs` puts the program of this name."""
    return ROOT / "target" / "bin" / name


def checked_program(parser, path, name):
    """The path in full; ends the tool where no program is there, or the program is left out and not built."""
    program = path or built(name)
    if not program.is_file() or not os.access(program, os.X_OK):
        parser.error(f"there is no program {program}; `tools/programs` builds target/bin/{name}")
    return program.resolve()


def options_with_engines(parser):
    """The parser's options, and with them `script` and `plain`, the programs of the two engines."""
    for name, engine in ("script", "first"), ("plain", "plain"):
        parser.add_argument(f"--{name}", metavar="PATH", type=pathlib.Path,
                            help=f"the {engine} engine's program (default: target/bin/{name}, which `tools/programs` "
                                 "builds)")
    options = parser.parse_args()
    options.script = checked_program(parser, options.script, "script")
    options.plain = checked_program(parser, options.plain, "plain")
    return options


def run_program(program, script):
    """The program's output, and what went wrong besides (None if nothing did)."""
    try:
        done = subprocess.run([program], input=script, capture_output=True, timeout=SECONDS_ALLOWED)
    except subprocess.TimeoutExpired as late:
        return late.stdout or b"", f"it did not end within {SECONDS_ALLOWED} seconds"
    if done.returncode != 0:
        return done.stdout, f"it ended with status {done.returncode}"
    return done.stdout, None


def output_lines(program, script):
    """The lines that the program writes; ends the tool where the program fails."""
    output, trouble = run_program(program, script)
    if trouble is not None:
        sys.exit(f"{program}: {trouble}")
    return output.split(b"\n")[:-1]


def picks(program, script):
    """The packets that the program picks, one at each line `p`; ends the tool where the program does anything else."""
    found = [PICKED.fullmatch(line) for line in output_lines(program, script) if line.startswith(b"p")]
    if None in found or len(found) != script.split(b"\n").count(b"p"):
        sys.exit(f"{program}: it does not pick a packet at each line `p`")
    return [Pick(*map(int, match.groups())) for match in found]
