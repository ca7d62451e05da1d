"""What a function for x86-64 makes of constants alone, instruction by instruction; all else is data.

Kept account of: registers, flags, and the bytes of the function's stack frame. What a function starts with is data, and so
is what an instruction makes that is not known here: there may be too much data, not too little."""
import re
from dataclasses import dataclass

SIZES = {"BYTE": 1, "WORD": 2, "DWORD": 4, "QWORD": 8, "XMMWORD": 16}
MOVES = {"mov", "movabs", "movzx", "movsx", "movsxd"}
SUMS = {"add", "sub", "and", "or", "xor", "imul", "neg"}
SHIFTS = {"shl", "shr", "sar", "shld", "shrd"}
TURNS = {"rol", "ror", "not", "bswap"}
BITS = {"bt", "btc", "btr", "bts"}
NOTHING = {"nop", "endbr64"}
ENDS = {"ret", "jmp", "ud2", "hlt", "int3"}
FLAGS = {"carry", "other flags"}
READ_CARRY = {"a", "ae", "b", "be", "c", "na", "nae", "nb", "nbe", "nc"}
LOST_BY_CALL = {"rax", "rcx", "rdx", "rsi", "rdi", "r8", "r9", "r10", "r11"} | FLAGS
LOST_BY_UNKNOWN = {"rax", "rbx", "rcx", "rdx", "rsi", "rdi"} | FLAGS
ODD_VECTORS = ("pcmpestr", "pcmpistr", "maskmov")  # these change what they do not name


class NotFollowed(Exception):
    """Why the account can't be kept; step is the instruction."""


def registers():
    """Each name of a register: the whole register, and how many bytes of it."""
    named = {}
    for a in "abcd":
        named |= {f"r{a}x": (f"r{a}x", 8), f"e{a}x": (f"r{a}x", 4), f"{a}x": (f"r{a}x", 2)}
        named |= {f"{a}l": (f"r{a}x", 1), f"{a}h": (f"r{a}x", 1)}
    for a in ("si", "di", "bp", "sp"):
        named |= {f"r{a}": (f"r{a}", 8), f"e{a}": (f"r{a}", 4), a: (f"r{a}", 2), f"{a}l": (f"r{a}", 1)}
    for a in (f"r{n}" for n in range(8, 16)):
        named |= {a: (a, 8), f"{a}d": (a, 4), f"{a}w": (a, 2), f"{a}b": (a, 1)}
    return named


REGISTERS = registers()


def condition(name):
    """The condition of a conditional jump, move or set; None for another instruction."""
    found = re.match(r"(?:cmov|set|j(?!mp))(\w+)$", name)
    return found[1] if found else None


@dataclass
class Account:
    """What is made of constants: registers and flags by name, bytes of the frame by their distance from its start."""

    names: set
    frame: set
    depth: int = 0  # where the stack pointer is, from where it was at the start

    def copy(self):
        return Account(set(self.names), set(self.frame), self.depth)

    def meet(self, other):
        """What both have."""
        if self.depth != other.depth:
            raise NotFollowed("the stack has two depths at one place")
        return Account(self.names & other.names, self.frame & other.frame, self.depth)

    def places(self, operand):
        """The bytes of the frame that an operand is; None where that is not known."""
        found = re.match(r"(\w+) PTR \[rsp(?:([+-])0x([0-9a-f]+))?\]$", operand)
        if not found or found[1] not in SIZES:
            return None
        start = self.depth + int((found[2] or "+") + (found[3] or "0"), 16)
        return set(range(start, start + SIZES[found[1]]))

    def has(self, operand):
        """Whether an operand is made of constants."""
        if operand in REGISTERS:
            return REGISTERS[operand][0] in self.names | {"rsp"}
        if "[" not in operand:
            return re.fullmatch(r"0x[0-9a-f]+|\d", operand) is not None
        places = self.places(operand)
        return places is not None and places <= self.frame

    def mark(self, names, constant):
        self.names = self.names | names if constant else self.names - names

    def write(self, operand, constant):
        if operand in REGISTERS:
            whole, size = REGISTERS[operand]
            if whole == "rsp":
                raise NotFollowed("the stack pointer is set")
            self.mark({whole}, constant and (size >= 4 or whole in self.names))
        elif "[" in operand:
            places = self.places(operand)
            if places is None:
                self.frame = set()  # it may be any of it
            else:
                self.frame = self.frame | places if constant else self.frame - places

    def decides(self, chosen):
        """Whether what a condition reads is made of constants."""
        return ({"other flags", "carry"} if chosen in READ_CARRY else {"other flags"}) <= self.names


def stack_moved(account, step):
    """Whether an instruction moves the stack pointer by a known distance; if so, that is booked."""
    if step.name == "push":
        constant = account.has(step.operands[0])
        account.depth -= 8
        account.write("QWORD PTR [rsp]", constant)
    elif step.name == "pop":
        account.write(step.operands[0], account.has("QWORD PTR [rsp]"))
        account.depth += 8
    elif step.name in ("add", "sub") and re.fullmatch(r"rsp,0x[0-9a-f]+", ",".join(step.operands)):
        distance = int(step.operands[1], 16)
        distance -= 2**64 * (distance >> 63)
        account.depth += distance if step.name == "add" else -distance
        account.mark(FLAGS, False)
    else:
        return False
    return True


def unknown(account, step):
    """What an instruction names is data after it, and what it may change unnamed."""
    if step.name in ("enter", "leave"):
        raise NotFollowed("the stack pointer is set")
    for operand in step.operands:
        account.write(operand, False)
    vector = "mm" in " ".join(step.operands) and not step.name.startswith(ODD_VECTORS)
    account.mark(FLAGS if vector else LOST_BY_UNKNOWN, False)
    if not vector:
        account.frame = set()


def computed(account, step):
    """Books an instruction that makes its first operand, or flags, of its operands; says whether it is one."""
    name, operands = step.name, step.operands
    constant = all(account.has(operand) for operand in operands)
    itself = name in ("xor", "sub") and operands[0] == operands[1] and operands[0] in REGISTERS
    if name in ("cmp", "test"):
        account.mark(FLAGS, constant)
    elif name in ("inc", "dec"):
        account.write(operands[0], constant)
        account.mark({"other flags"}, constant)
    elif name in SUMS and (name != "imul" or len(operands) > 1) or name in SHIFTS and operands[-1] != "cl":
        account.write(operands[0], constant or itself)
        account.mark(FLAGS, constant or itself)
    elif name in SHIFTS and len(operands) == 2:  # by cl, where a shift by 0 leaves the flags as they were
        account.write(operands[0], constant)
        account.mark(FLAGS, False)
    elif name in TURNS or name in BITS and operands[0] in REGISTERS:  # in memory a bit may lie outside the operand
        account.write(operands[0], constant)
        account.mark(FLAGS, False)
    elif condition(name) is not None:
        account.write(operands[0], (constant or name.startswith("set")) and account.decides(condition(name)))
    else:
        return False
    return True


def book(account, step):
    """What an instruction makes of the account."""
    name, operands = step.name, step.operands
    if name in NOTHING or name.startswith("j"):
        return
    if name == "call":
        account.mark(LOST_BY_CALL, False)
        account.frame = set()
    elif step.prefixes:
        unknown(account, step)
    elif name in MOVES:
        account.write(operands[0], account.has(operands[1]))
    elif name == "lea":
        account.write(operands[0], all(account.has(word) for word in re.findall(r"[a-z]\w*", operands[1])))
    elif not stack_moved(account, step) and not computed(account, step):
        unknown(account, step)


def ways(body, numbered, k):
    """The places of the instructions that may come after the one at place k."""
    step = body[k]
    jumped = [numbered[step.target]] if step.name.startswith("j") and step.target in numbered else []
    return jumped if step.name in ENDS or k + 1 == len(body) else jumped + [k + 1]


def accounts(body):
    """The account before each instruction that can be reached, whichever way, by the instruction's place."""
    numbered = {step.address: k for k, step in enumerate(body)}
    before, waiting = {0: Account(set(), set())}, [0]
    while waiting:
        k = waiting.pop()
        after = before[k].copy()
        try:
            book(after, body[k])
            met = {n: before[n].meet(after) if n in before else after for n in ways(body, numbered, k)}
        except NotFollowed as reason:
            reason.step = body[k]
            raise
        waiting += [n for n in met if before.get(n) != met[n]]
        before |= met
    return before
