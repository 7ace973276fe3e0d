"""A case as the replay takes it in and as it has to write it: frames, and the lines that show all that is seen."""
from dataclasses import dataclass

from play import SAME, Apply, Lend, Name, Start


@dataclass
class Layout:
    """How wide the records are, and where those of a table begin."""
    header_width: int
    nexus_width: int
    task_width: int
    ended_width: int
    nexuses_at: int
    tasks_at: int

    @classmethod
    def made_by(cls, makers):
        """`makers` gives what Makers.antt defines under a name."""
        widths = [makers(f"{kind}_width") for kind in ("header", "nexus", "task", "ended")]
        return cls(*widths, makers("nexus_place")(0), makers("task_place")(0))

    def width_in_table(self, at):
        if at < self.nexuses_at:
            return self.header_width
        return self.nexus_width if at < self.tasks_at else self.task_width

    def width_in_report(self, at):
        return self.ended_width


def frame(kind, number=0, payload=b""):
    return kind + bytes([number]) + len(payload).to_bytes(2, "big") + bytes(4) + bytes(payload)


def frame_of(move):
    if isinstance(move, Lend):
        return frame(b"T", 0, move.table)
    if isinstance(move, Start):
        return frame(b"S", move.policy)
    if isinstance(move, Name):
        return frame(b"N")
    return frame(b"A", 0, move.event)


def frames(case):
    yield frame(b"C", 0, case.name.encode("ascii"))
    yield frame(b"T", 0, case.begins)
    yield frame(b"R", 0, case.buffer)
    for move in case.moves:
        yield frame_of(move)


def hexed(bytes_given):
    return "".join(f" {byte:02X}" for byte in bytes_given)


def rows_of(bytes_given, width_at):
    rows, at = [], 0
    while at < len(bytes_given):
        rows.append(bytes_given[at:at + width_at(at)])
        at += len(rows[-1])
    return rows


def dumped(title, bytes_given, width_at):
    """As hexdump prints: a line for each record, and one `*` for a run of lines equal to the one before."""
    yield f"{title}, {len(bytes_given)} bytes"
    rows = rows_of(bytes_given, width_at)
    for place, row in enumerate(rows):
        if place == 0 or row != rows[place - 1]:
            yield " " + hexed(row)
        elif place == 1 or row != rows[place - 2]:
            yield "  *"


def first_line(move):
    if isinstance(move, Start):
        return f"start{hexed([move.policy])}: answer {move.answer}"
    if isinstance(move, Name):
        return "name: answer {}, found {}, nexus {}, tag {}".format(*move.said)
    answer, *sense, ended = move.said
    return f"event{hexed(move.event)}: {answer}{hexed(sense)} {ended}"


def lines(case, layout):
    """Only what the case's text says goes in here; no operation is run."""
    yield f"case {case.name}"
    table = case.begins
    for move in case.moves:
        if isinstance(move, Lend):
            table = move.table
            continue
        yield first_line(move)
        if isinstance(move, Name):
            continue
        table = table if move.table is SAME else move.table
        yield from dumped("table", table, layout.width_in_table)
        if isinstance(move, Apply):
            yield from dumped("report", case.buffer if move.report is SAME else move.report, layout.width_in_report)
