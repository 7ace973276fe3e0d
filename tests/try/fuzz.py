"""Lines put together at random, from a fixed seed: each is written back, and then answered, or said to be unclear by its number."""
import random
import re
import subprocess

LINES = 6000
WORDS = """start 00 01 02 03 05 ff command completion abort task set clear aca ACA logical unit reset hard nexus loss lost power on
0 1 7 8 255 256 0.1 0.2 1.1 1.2 2.1 7.65535 0.65536 8.1 S H O A SIMPLE HEAD OF QUEUE ORDERED GOOD CHECK CONDITION ends fails busy conflict RESERVATION CONFLICT naca exempt
54 5456 54560100 # help ? pending x""".split()
USUAL = ["{}.{} S", "{}.{} O", "{}.{} H naca", "{}.{} S naca", "{}.{} A", "{}.{} ends", "{}.{} ends", "{}.{} fails", "{}.{} busy",
         "{}.{} conflict", "abort {}.{}",
         "clear aca {}", "start {}2", "5456010{}0000000{}", "5456020{}0000000{}"]
# each that an event or a start can get; the two buffers are never wrong
ANSWERS = b"0 3 4 5 6 7 8 9".split()


def usual(random_from):
    return random_from.choice(USUAL).format(random_from.randrange(3), random_from.randrange(6))


def mixed(random_from):
    return random_from.choice(" \t").join(random_from.choices(WORDS, k=random_from.randrange(1, 6)))


def damaged(random_from):
    line = bytearray(usual(random_from).encode())
    line[random_from.randrange(len(line))] = random_from.randrange(256)
    return line.decode("latin-1")


def any_bytes(random_from):
    return "".join(map(chr, random_from.choices(range(256), k=random_from.randrange(80))))


def made():
    random_from = random.Random(20261115)
    makers = random_from.choices([usual, mixed, damaged, any_bytes], [6, 3, 2, 1], k=LINES)
    return "".join(maker(random_from) + "\n" for maker in makers).encode("latin-1")


def told(errors):
    """The numbers of the lines that were unclear; a line on standard error that tells of none counts as 0."""
    numbers = [re.match(rb"line (\d+): \".*right would be ", line) for line in errors.split(b"\n")[:-1]]
    return [int(number[1]) if number else 0 for number in numbers]


def run(program, _home):
    given = made()
    run_of = program.start(input=given, stdout=subprocess.PIPE)
    numbers = told(run_of.stderr)
    seen = {
        "lines": len(re.findall(rb"^> ", run_of.stdout, re.MULTILINE)),
        "answers": sorted(set(re.findall(rb"^  (\d) ", run_of.stdout, re.MULTILINE))),
        "unclear, each once": numbers == sorted(set(numbers)) and 0 not in numbers and len(numbers) > LINES / 20,
    }
    expected = {"lines": given.count(b"\n"), "answers": ANSWERS, "unclear, each once": True}
    program.compare("random lines", (f"{expected}\n", 1), (f"{seen}\n", run_of.returncode))
    program.lines += expected["lines"]
