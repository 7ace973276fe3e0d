"""The sessions: texts with the lines that are given, behind "> ", and what is to be written for each, by hand from the rules."""
import os
import pty
import re
import select
import subprocess

# seconds; an emulator takes some to begin
PATIENCE = 20


def given_in(text):
    return "".join(line[2:] for line in text.splitlines(keepends=True) if line.startswith("> "))


def exit_of(text):
    return 1 if re.search(r"^line \d+: ", text, re.MULTILINE) else 0


def read_some(terminal):
    """Nothing when the program has ended, or when it waits and shows no prompt."""
    ready, _, _ = select.select([terminal], [], [], PATIENCE)
    try:
        return os.read(terminal, 4096) if ready else b""
    except OSError:
        return b""


def read_to_prompt(terminal):
    """What the terminal shows up to the next prompt, or to the program's end."""
    shown = b""
    while not shown.endswith(b"\n> "):
        more = read_some(terminal)
        if not more:
            break
        shown += more
    return shown


def at_terminal(program, given):
    """Each line is typed when the prompt is there; the terminal itself shows what is typed."""
    terminal, other = pty.openpty()
    run = subprocess.Popen(program.command, stdin=other, stdout=other, stderr=other, close_fds=True)
    os.close(other)
    shown = read_to_prompt(terminal)
    for line in [*given.splitlines(keepends=True), "\x04"]:
        if not shown.endswith(b"\n> "):
            break
        os.write(terminal, line.encode())
        shown += read_to_prompt(terminal)
    os.close(terminal)
    return shown.decode().replace("\r\n", "\n"), run.wait(60)


def run(program, home):
    for path in sorted((home / "sessions").glob("*.txt")):
        expected = path.read_text()
        given = given_in(expected)
        program.compare(path.name, (expected, exit_of(expected)), program.merged(given.encode()))
        by_hand = expected if given.endswith("quit\n") else expected + "> \n"
        program.compare(f"{path.name} at a terminal", (by_hand, exit_of(expected)), at_terminal(program, given))
