"""What the files of crates/cases/specs do not define by clauses: the types of Play.antt, and the functions on numbers and lists that they cite."""
from dataclasses import dataclass, field

SAME = None


@dataclass
class Lend:
    table: list


@dataclass
class Start:
    policy: int
    answer: int
    table: list


@dataclass
class Name:
    said: list


@dataclass
class Apply:
    event: list
    said: list
    table: list
    report: list


@dataclass
class Case:
    begins: list
    buffer: list
    moves: list
    name: str = field(default="", compare=False)


def with_set(elements, place, value):
    return elements[:place] + [value] + elements[place + 1:] if place < len(elements) else elements


WORDS = {
    "suc": lambda number: number + 1,
    "length": len,
    "replicate": lambda count, element: [element] * count,
    "take": lambda count, elements: elements[:count],
    "set": with_set,
    "unchanged": SAME,
    "now": lambda bytes_given: bytes_given,
    "lend": Lend,
    "start": Start,
    "name": Name,
    "apply": Apply,
    "record": Case,
}
