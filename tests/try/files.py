"""Files named one after the other, and what the system refuses: each with one line on standard error."""
import os
import pathlib
import resource
import signal
import tempfile
from subprocess import DEVNULL

from program import ATTRIBUTES, BEGIN, ENDS

USAGE = "usage: try [FILE...]\n"


def write_files(folder):
    (folder / "one").write_text("0.1 S exempt\n")
    (folder / "two").write_text("\ufeff0.2 O exempt\n\n0.3 X\n")
    (folder / "leaves").write_text("quit\n")


def shown_for(folder):
    one = "> 0.1 S exempt\n  0 done: entered\n  0.1 S enabled; turn: 0.1\n"
    two = "> 0.2 O exempt\n  0 done: entered\n  0.1 S enabled, 0.2 O dormant; turn: 0.1\n> \n> 0.3 X\n"
    wrong = f'{folder}/two: line 3: "0.3 X": X is no attribute; right would be {ATTRIBUTES}; or {ENDS}\n'
    ends = "> 0.1 ends\n  0 done; ended: 0.1 GOOD\n  0.2 O enabled; turn: 0.2\n"
    return {
        ("one",): (one, 0),
        ("one", "two", "-"): (one + two + wrong + ends, 1),
        ("one", "missing", "two"): (one + f"try: {folder}/missing: No such file or directory\n", 1),
        ("one", "."): (one + f"try: {folder}/.: Is a directory\n", 1),
        ("one", "leaves", "missing"): (one + "> quit\n", 0),
    }


def try_names(program, folder):
    for names, (expected, code) in shown_for(folder).items():
        arguments = [name if name == "-" else f"{folder}/{name}" for name in names]
        program.compare(" ".join(names), (BEGIN + expected, code), program.merged(b"0.1 ends\n", *arguments))


def try_options(program):
    for option in ("-x", "--help"):
        program.compare(option, (f"try: {option}: no such option; {USAGE}", 2), program.merged(b"", option))


def complaint(program, **options):
    """What it says on standard error, and its exit."""
    run_of = program.start(**options)
    return run_of.stderr.decode(), run_of.returncode


def short_files():
    """No file may become longer than that, and the program is told so by its write."""
    signal.signal(signal.SIGXFSZ, signal.SIG_IGN)
    resource.setrlimit(resource.RLIMIT_FSIZE, (200, 200))


def try_outputs(program, folder):
    with open("/dev/full", "wb") as full:
        refused = complaint(program, input=b"power\n", stdout=full)
        program.compare("a full disk", ("try: standard output: No space left on device\n", 1), refused)
    with open(folder / "short", "wb") as short:
        limited = complaint(program, input=b"power\n" * 99, stdout=short, preexec_fn=short_files)
        program.compare("a disk that is full later", ("try: standard output: File too large\n", 1), limited)
    with open(os.devnull, "wb") as nothing:
        closed = complaint(program, input=b"power\n", stdout=nothing, preexec_fn=lambda: os.close(1))
        program.compare("no output", ("try: standard output: Bad file descriptor\n", 1), closed)


def try_inputs(program, folder):
    with open(os.devnull, "rb") as nothing:
        closed = complaint(program, stdin=nothing, stdout=DEVNULL, preexec_fn=lambda: os.close(0))
        program.compare("no input", ("try: standard input: Bad file descriptor\n", 1), closed)
    directory = os.open(folder, os.O_RDONLY)
    program.compare("a folder as input", ("try: standard input: Is a directory\n", 1), complaint(program, stdin=directory, stdout=DEVNULL))
    os.close(directory)


def run(program, _home):
    with tempfile.TemporaryDirectory() as name:
        folder = pathlib.Path(name)
        write_files(folder)
        try_names(program, folder)
        try_options(program)
        try_outputs(program, folder)
        try_inputs(program, folder)
