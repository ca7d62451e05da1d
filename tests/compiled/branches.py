"""Says whether functions of a library or program for x86-64 decide anything by data.

Usage: branches.py FILE [FUNCTION...]
       branches.py --self-test

Refused: a jump or a conditional move that data decides, a jump or call to an address that is worked out, a block move whose
length is data, a repeated instruction, and a call of a function that is not looked at. Data is all that is not made of
constants alone (constants.py). Reads at a place that data picks, such as look-ups in a table, are counted and not refused. How
long an instruction takes is not looked at.

Without a FUNCTION, those that work on the key's bits are looked at: the block and the key expansion of the cipher by
tables, the two C functions into which those of the byte-wise cipher are built, and the hash's block. No other function
may have the number by which the field's doubling reduces, or read in four tables of words side by side: a second copy
of a cipher, built into its caller, would not be looked at."""
import argparse
import re
import subprocess
import sys
import tempfile
from pathlib import Path

from constants import SHIFTS, NotFollowed, accounts, condition
from disassembly import functions

CASES = Path(__file__).with_suffix(".s")
KEYED = [
    "word_cipher::block::encrypt_by",
    "word_cipher::key::expand_key",
    "fortuna_aes256_bytewise_block",
    "fortuna_aes256_bytewise_expand",
    "hash::block::compress",
]
POLYNOMIAL = "0x1b"
TABLE = 4 * 256  # bytes of a table of words
BLOCK_MOVES = {"memcpy", "memmove", "memset"}
VECTOR_SHIFTS = {f"ps{way}{size}" for way in ("ll", "rl", "ra") for size in "wdq"}


def fault(account, step, leaves, named):
    """Why an instruction is refused; None where it is not."""
    chosen = condition(step.name)
    if step.name in ("jcxz", "jecxz", "jrcxz", "loop", "loope", "loopne") or "rep" in "".join(step.prefixes):
        return "goes on as a register says"
    if chosen is not None and not step.name.startswith("set") and not account.decides(chosen):
        return "is decided by data"
    if not leaves:
        return None
    if step.symbol is None:
        return "goes to an address that is worked out"
    if step.symbol in BLOCK_MOVES:
        return None if account.has("rdx") else "moves a block whose length is data"
    return None if step.symbol in named else f"goes to {step.symbol}, which is not looked at"


def looks_up(account, step):
    """Whether an instruction reads or writes at a place that data picks."""
    picked = re.findall(r"(\w+)\*[1248]", " ".join(step.operands))
    return step.name not in ("lea", "nop") and not all(account.has(register) for register in picked)


def refusals(body, named):
    """What is refused in a function, as pairs of the instruction and why, and the accounts that were kept."""
    places = {step.address for step in body}
    try:
        before = accounts(body)
    except NotFollowed as reason:
        return [(reason.step, str(reason))], {}
    refused = []
    for k, account in sorted(before.items()):
        leaves = body[k].name == "call" or body[k].name.startswith("j") and body[k].target not in places
        if why := fault(account, body[k], leaves, named):
            refused.append((body[k], why))
    return refused, before


def examine(name, body, named):
    """A line on what a function has, and a line for each instruction that is refused."""
    refused, before = refusals(body, named)
    jumps = sum(body[k].name.startswith("j") and body[k].name != "jmp" for k in before)
    reads = sum(looks_up(before[k], body[k]) for k in before)
    print(f"{name}: {len(before)} instructions, conditional jumps {jumps}, look-ups by data {reads}, refused {len(refused)}")
    return [f"{name}+{step.address - body[0].address:#x}: {step.text}: {why}" for step, why in refused]


def tables_read(body):
    """Whether a function reads, at places that registers pick, in four tables of words that lie side by side."""
    read = {
        int(far or "0", 16)
        for step in body
        if step.name != "lea"
        for far in re.findall(r"\+\w+\*[14]([+-]0x[0-9a-f]+)?\]", " ".join(step.operands))
    }
    return any(all(first + n * TABLE in read for n in range(4)) for first in read)


def copies(found, named):
    """Where a function that is not named has the polynomial, other than to shift by, or reads in four tables."""
    others = {name: body for name, body in found.items() if name not in named}
    doublings = [
        f"{name}: {step.text}: the doubling, in a function that is not looked at"
        for name, body in others.items()
        for step in body
        if POLYNOMIAL in step.operands and step.name not in SHIFTS | VECTOR_SHIFTS
    ]
    return doublings + [
        f"{name}: look-ups in four tables of words, in a function that is not looked at"
        for name, body in others.items()
        if tables_read(body)
    ]


def self_test():
    """Each function of the cases has before it what is to be said of it: 'passes', or what is refused and why."""
    expected = re.findall(r'^# (.+)\n"(.+)":$', CASES.read_text(), re.MULTILINE)
    with tempfile.NamedTemporaryFile(suffix=".o") as made:
        subprocess.run(["as", "-o", made.name, str(CASES)], check=True)
        found = functions(made.name)
    assert len(expected) == len(found), "a case says nothing of itself"
    for said, name in expected:
        refused, _ = refusals(found[name], [name])
        told = "; ".join(f"{step.text.split()[0]}: {why}" for step, why in refused) or "passes"
        assert told == said, f"{name}: {told}, in place of {said}"
    told = [each.split(":")[0] for each in copies(found, [])]
    assert told == ["arithmetic on the top bit", "a choice by the top bit", "a column by four tables"], told
    assert copies(found, found) == []
    print(f"branches: {len(expected)} functions told apart")


def main():
    parser = argparse.ArgumentParser(usage="branches.py FILE [FUNCTION...] | --self-test")
    parser.add_argument("file", nargs="?")
    parser.add_argument("functions", nargs="*")
    parser.add_argument("--self-test", action="store_true")
    given = parser.parse_args()
    if given.self_test:
        return self_test()
    if given.file is None:
        parser.error("no file is named")
    try:
        found = functions(given.file)
    except subprocess.CalledProcessError as failed:
        sys.exit(failed.stderr.strip())
    named = given.functions or KEYED
    if missing := [name for name in named if name not in found]:
        sys.exit(f"{given.file}: no function {', '.join(missing)}")
    faults = [] if given.functions else copies(found, KEYED)
    for name in named:
        faults += examine(name, found[name], named)
    if faults:
        sys.exit("\n".join(faults))


if __name__ == "__main__":
    main()
