"""Bytes that are no plain lines of text, the help, and README's example."""
import pathlib
import re
import subprocess

from program import ATTRIBUTES, BEGIN, ENDS

ENTERED = "  0 done: entered\n  0.1 S enabled; turn: 0.1\n"
ABORTED = "  0 done: FUNCTION COMPLETE to nexus 0\n  no tasks; turn: nobody\n"
NUL = "there is a NUL byte in it; right would be text alone\n"
# as long as a line may be
FULL = 4095
TOO_LONG = '...": the line is too long; right would be 4095 bytes at the most\n'
LONG = "  3 bad event: 64 bytes, and an event has 8; nothing has changed\n  no tasks; turn: nobody\n"
TOO_MANY = (
    '...": there are more than 64 bytes; right would be two hex digits for each byte, as in 54 56 01 00 00 00 00 01; '
    "or a task, as in 0.1 S\n"
)
NO_ATTRIBUTE = f"is no attribute; right would be {ATTRIBUTES}; or {ENDS}\n"
NO_TAG = "is no tag, which is 0 to 65535; right would be 0.1 S, 0.1 ends, 0.1 fails, 0.1 busy, 0.1 conflict\n"
MARK = b"\xEF\xBB\xBF"
NO_LINE = (
    "no line begins so; right would be 0.1 S, 0.1 ends, 0.1 fails, 0.1 busy, 0.1 conflict, abort set 0, abort 0.1, clear set 0, clear aca 0, "
    "reset 0, hard, lost 0, power, start 00, 54 56 01 00 00 00 00 01, help, pending, quit\n"
)
# what the help says below its forms
NOTES = """\
  Attributes: S SIMPLE, H HEAD OF QUEUE, O ORDERED, A ACA. Behind one may stand naca (its CHECK CONDITION sets up an
  ACA) and exempt (INQUIRY, REPORT LUNS, REQUEST SENSE). A nexus is 0 to 7, a tag 0 to 65535; a nexus up to 255 may be tried.
  Policies: 00 QERR 00b (a CHECK CONDITION aborts no other task), 01 QERR 01b (every other task), 03 QERR 11b (the other
  tasks of that nexus); 04, 05 and 07 are these with TAS (a task that another nexus aborts, by QERR or CLEAR TASK SET, ends
  with TASK ABORTED, while without TAS nothing is sent for it, and its nexus will be told by a unit attention).
  Upper and lower case are the same. # begins a comment.
  pending shows what waits to be told, and help or ? shows this. quit, exit, q or the end of the input ends the session.
"""

INPUTS = {
    "nothing": (b"", "", 0),
    "no last line feed": (b"0.1 S exempt", "> 0.1 S exempt\n" + ENTERED, 0),
    "CR LF": (b"abort set 0\r\n\r\n0.1 S exempt\r\n", "> abort set 0\n" + ABORTED + "> \n> 0.1 S exempt\n" + ENTERED, 0),
    "blanks and tabs": (b" \t \n\t0.1\t S \texempt\t\n", ">  \t \n> \t0.1\t S \texempt\t\n" + ENTERED, 0),
    "comments": (b"#\n  # 0.1 S exempt\nabort set 0#1\n", "> #\n>   # 0.1 S exempt\n> abort set 0#1\n" + ABORTED, 0),
    "a NUL byte": (
        b"0.1 S exempt\0\nhelp\0\n",
        f'> 0.1 S exempt\\x00\nline 1: "0.1 S exempt\\x00": {NUL}> help\\x00\nline 2: "help\\x00": {NUL}',
        1,
    ),
    "control characters": (b"0.1 \x1b[2J\n", f'> 0.1 \\x1B[2J\nline 1: "0.1 \\x1B[2J": \\x1B[2J {NO_ATTRIBUTE}', 1),
    "the longest line": (b"abort set 0".ljust(FULL) + b"\n", "> " + "abort set 0".ljust(FULL) + "\n" + ABORTED, 0),
    "a line too long by one": (
        b"abort set 0".ljust(FULL + 1) + b"\nabort set 0\n",
        "> " + "abort set 0".ljust(FULL) + '\nline 1: "' + "abort set 0".ljust(60) + TOO_LONG + "> abort set 0\n" + ABORTED,
        1,
    ),
    "a long line's rest is no line": (b"#" * FULL + b"0.1 S exempt\n", "> " + "#" * FULL + '\nline 1: "' + "#" * 60 + TOO_LONG, 1),
    "64 bytes in hex": (b"54" * 64, "> " + "54" * 64 + "\n" + LONG, 0),
    "65 bytes in hex": (b"54" * 65, "> " + "54" * 65 + '\nline 1: "' + "54" * 30 + TOO_MANY, 1),
    "65 bytes apart": (b"54 " * 65, "> " + "54 " * 65 + '\nline 1: "' + "54 " * 20 + TOO_MANY, 1),
    "a byte order mark": (MARK + b"0.1 S exempt\n", "> 0.1 S exempt\n" + ENTERED, 0),
    "a byte order mark alone": (MARK, "> \n", 0),
    "a byte order mark before the longest line": (MARK + b"abort set 0".ljust(FULL), "> " + "abort set 0".ljust(FULL) + "\n" + ABORTED, 0),
    "two byte order marks": (MARK + MARK + b"help\n", f'> \ufeffhelp\nline 1: "\\xEF\\xBB\\xBFhelp": {NO_LINE}', 1),
    "a byte order mark in a later line": (b"\n" + MARK + b"hard\n", f'> \n> \ufeffhard\nline 2: "\\xEF\\xBB\\xBFhard": {NO_LINE}', 1),
    "a no-break space": (b"0.1\xC2\xA0S\n", f'> 0.1\u00a0S\nline 1: "0.1\\xC2\\xA0S": 1\\xC2\\xA0S {NO_TAG}', 1),
    "a byte 7Fh": (b"0.1 \x7F~\n", f'> 0.1 \\x7F~\nline 1: "0.1 \\x7F~": \\x7F~ {NO_ATTRIBUTE}', 1),
    "letters of other languages in a comment": ("# ღამე\n".encode(), "> # ღამე\n", 0),
    "exit": (b"Exit\n0.1 S exempt\n", "> Exit\n", 0),
    "q": (b" q# now\n0.1 S exempt\n", ">  q# now\n", 0),
    "quit": (b"QUIT # now\n0.1 S exempt\n", "> QUIT # now\n", 0),
}


def try_help(program):
    """Each example of the list has to be a line, and each form has to be in it, short and long."""
    shown, _ = program.merged(b"help\n")
    same, _ = program.merged(b"?\n")
    rows = [re.split(r"\s{2,}", line) for line in shown.splitlines() if re.search(r"\S\s{2,}", line)]
    examples = [example for row in rows for example in row[1:-1]]
    _, clear = program.merged("\n".join(examples).encode())
    program.compare("help", ("15 forms, 30 examples\n", 0), (f"{len(rows)} forms, {len(examples)} examples\n", clear))
    notes = shown[shown.find("  Attributes:"):]
    program.compare("the notes of the help", (NOTES, 0), (notes, 0))
    program.compare("?", (shown.replace("> help", "> ?"), 0), (same, 0))


def entries(count):
    """The session of that many SIMPLE tasks of nexus 7, each enabled since there is no other attribute."""
    tasks = [f"7.{60000 + place} S" for place in range(count)]
    tables = ["  " + ", ".join(f"{task} enabled" for task in tasks[: place + 1]) + "; turn: 7.60000\n" for place in range(count)]
    return "".join(f"> {task} exempt\n  0 done: entered\n{table}" for task, table in zip(tasks, tables)), tables[-1]


def try_full(program):
    """The longest lines that there are: 64 tasks, and their end."""
    entered, table = entries(64)
    ended = ", ".join(f"7.{60000 + place} FFh (nothing is sent)" for place in range(64))
    expected = BEGIN + entered + "> 7.1 S exempt\n  7 ended at entry: 7.1 TASK SET FULL\n" + table
    expected += f"> abort set 7\n  0 done: FUNCTION COMPLETE to nexus 7; ended: {ended}\n  no tasks; turn: nobody\n"
    given = "".join(f"7.{60000 + place} S exempt\n" for place in range(64)) + "7.1 S exempt\nabort set 7\n"
    program.compare("a full table", (expected, 0), program.merged(given.encode()))


def block_of(text):
    """The lines of an example, which are those with four blanks before them."""
    return [line[4:] for line in text.splitlines() if line.startswith("    ")]


def try_readme(program, home):
    """The example of README.md is a command and what it writes; that of try/README.md stands in a session."""
    section = pathlib.Path("README.md").read_text().split("## Try it by hand\n")[1].split("\n## ")[0]
    command, *expected = block_of(section)
    run_of = subprocess.run(command.replace("build/bin/try", " ".join(program.command)), shell=True, stdout=subprocess.PIPE, text=True)
    program.compare("README.md", ("\n".join(expected) + "\n", 0), (run_of.stdout, run_of.returncode))
    example = "\n".join(block_of(pathlib.Path("try/README.md").read_text())[1:]) + "\n"
    sessions = "".join(path.read_text() for path in (home / "sessions").glob("*.txt"))
    program.compare("try/README.md", (example, 0), (example if example in sessions else sessions, 0))


def run(program, home):
    for name, (given, expected, code) in INPUTS.items():
        program.compare(name, (BEGIN + expected, code), program.merged(given))
    try_full(program)
    try_help(program)
    try_readme(program, home)
