"""Functions of a library or program for x86-64, as objdump (binutils) takes them apart."""
import re
import subprocess
from dataclasses import dataclass

HEADING = re.compile(r"^[0-9a-f]+ <(.+)>:$")
LINE = re.compile(r"^\s*([0-9a-f]+):\s+(\S.*)$")
RELOCATION = re.compile(r"R_X86_64_\S+\s+(\S.*)$")
TARGET = re.compile(r"^([0-9a-f]+) <(.+)>$")
PREFIXES = ("rep ", "repz ", "repnz ", "lock ", "bnd ", "notrack ", "data16 ", "cs ", "ds ")


@dataclass
class Instruction:
    address: int
    text: str
    prefixes: list
    name: str
    operands: list
    target: int = None  # the address that a direct call or jump goes to
    symbol: str = None  # the function that this address is in


def instruction(address, text):
    text = " ".join(text.split("#")[0].split())
    rest, prefixes = text, []
    while rest.startswith(PREFIXES):
        prefix, rest = rest.split(" ", 1)
        prefixes.append(prefix)
    name, _, operands = rest.partition(" ")
    if goes := TARGET.match(operands):
        symbol = re.sub(r"(@plt|\+0x[0-9a-f]+)$", "", goes[2])
        return Instruction(address, f"{name} <{goes[2]}>", prefixes, name, [], int(goes[1], 16), symbol)
    return Instruction(address, text, prefixes, name, operands.split(",") if operands else [])


def relocated(step, relocation):
    """A call or jump whose address is left to the linker goes to the function named there."""
    if step.target is not None:
        step.target, step.symbol = None, re.sub(r"^\.text\.|[-+]0x[0-9a-f]+$", "", relocation)
        step.text = f"{step.name} <{step.symbol}>"


def functions(path):
    """Each function's instructions, by its name."""
    command = ["objdump", "-d", "-r", "-w", "--no-show-raw-insn", "-M", "intel", path]
    listing = subprocess.run(command, check=True, capture_output=True, text=True).stdout
    found, body = {}, []
    for line in listing.splitlines():
        if heading := HEADING.match(line):
            body = found.setdefault(heading[1], [])
        elif part := LINE.match(line):
            text, _, rest = part[2].partition("\t")
            body.append(instruction(int(part[1], 16), text))
            if left := RELOCATION.search(rest):
                relocated(body[-1], left[1])
    return found
