"""The program that is tried, and the count of what it has done right."""
import difflib
import os
import subprocess
import sys

BEGIN = 'a fresh table of policy 00h (QERR 00b, TAS 0); "help" shows what a line may be\n'
ATTRIBUTES = "S, H, O or A, and behind it naca or exempt or both (without commas)"
ENDS = "ends, fails, busy or conflict"
BEGIN += "  nexus 0 to 7 will be told: 6h/29h/00h power on\n"


class Program:
    def __init__(self, name):
        self.command = os.environ.get("RUN", "").split() + [name]
        self.sessions = self.lines = self.wrong = 0

    def start(self, *arguments, **options):
        return subprocess.run([*self.command, *arguments], stderr=subprocess.PIPE, timeout=60, **options)

    def merged(self, given, *arguments):
        """What it writes to both outputs, where they are one, and its exit."""
        run = subprocess.run([*self.command, *arguments], input=given, stdout=subprocess.PIPE, stderr=subprocess.STDOUT, timeout=60)
        return run.stdout.decode(), run.returncode

    def compare(self, name, expected, shown):
        """Each pair has to be equal; the texts count as a session of so many lines."""
        if expected == shown:
            self.sessions += 1
            self.lines += str(expected[0]).count("\n")
            return
        self.wrong += 1
        print(f"try: wrong: {name}: exit {shown[1]}, and should be {expected[1]}", file=sys.stderr)
        sys.stderr.writelines(difflib.unified_diff(expected[0].splitlines(True), shown[0].splitlines(True), "expected", "shown"))
