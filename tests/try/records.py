"""Every kind of event record with right and wrong fields, and every policy byte: which are taken, and which field is said to be wrong."""
import itertools
import re

# where each field's ranges end; kinds, firsts, seconds, tags, nexuses
FIELDS = (range(6), (0, 1, 2, 3, 4, 5, 6, 8, 0x18, 0x28, 255), (0, 1, 2, 3, 4, 128), (0, 1, 256), (0, 7, 8, 255))
POLICIES = ("00", "01", "03", "04", "05", "07")


def wrong_of(kind, first, second, tag, nexus):
    """The first field that RULES 16 does not take; nothing for an event."""
    if kind not in (1, 2, 3, 4):
        return "kind"
    if kind == 2 and first not in (0, 2, 8, 0x18):
        return "status"
    if kind == 4 and first not in (1, 2, 3):
        return "condition"
    if second > (3 if kind == 1 else 0):
        return "control" if kind == 1 else "second field"
    if tag and (kind == 4 or (kind == 3 and first in (2, 3, 4, 5))):
        return "tag"
    if nexus and kind == 4 and first in (1, 2):
        return "nexus"
    return ""


def try_records(program):
    records = list(itertools.product(*FIELDS))
    lines = [f"5456{kind:02x}{nexus:02x}{first:02x}{second:02x}{tag:04x}" for kind, first, second, tag, nexus in records]
    shown, code = program.merged("\n".join(lines).encode())
    said = re.findall(r"^> (\S+)\n  \d (?:bad event: the ([a-z ]+) \(byte)?", shown, re.MULTILINE)
    expected = [(line, wrong_of(*record)) for line, record in zip(lines, records)]
    program.compare("wrong fields", ("\n".join(map(str, expected)), 0), ("\n".join(map(str, said)), code))


def try_policies(program):
    lines = [f"start {policy:02X}" for policy in range(256)]
    shown, code = program.merged("\n".join(lines).encode())
    taken = re.findall(r"^> start (..)\n  0 done: ", shown, re.MULTILINE)
    refused = shown.count(", and right would be 00, 01, 03, 04, 05 or 07; nothing has changed\n")
    program.compare("policies", (f"{list(POLICIES)} {256 - len(POLICIES)}", 0), (f"{taken} {refused}", code))


def run(program, _home):
    try_records(program)
    try_policies(program)
