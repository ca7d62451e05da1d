#!/usr/bin/env python3
"""Wrong programs and wrong definitions that the prover must refuse.

    tests/gate/edits.py [CRATE...]      the edits crates/NAME/must-fail/*.edit, of all crates or of those named
    tests/gate/edits.py CRATE/LABEL     an edit
    tests/gate/edits.py --said-by LOG   the edits of all crates, by what a run of rt ci wrote of them
    tests/gate/edits.py --fit           whether all edits fit the crates, and tests/gate/refused.txt lists them
    tests/gate/edits.py --self-test     whether edits that show nothing are told from those that do

rt ci tries each edit over what it proved of the crate, and so does rt must-fail, which takes what has not changed since from
earlier runs on this machine. rt counts an edit as refused where anything is not proved, and so also one that only renames a
goal: Rattle names goals by the code's words, a proof file answers them by their names, and the goal with the new name then
has no answer. Where what rt says may be no more than that, a second look here checks the edited crate with the new names put
into its proof files, and goes by what the prover says then. docs/PROOFS.md says why a refusal is one.

An edit has the form of rt's: lines 'file:', 'old:' and 'new:'. Its first line says what is wrong with the crate that it
makes. An edit is bad where that line is missing, where it does not fit the files, where it is one of a proof, where it does
not reach the prover, and where the first error is that a proof file does not fit the code, which shows nothing. The exit
status is 1 where an edit was bad or was not refused, and 2 where nothing could be tried. target/edits has what the prover said
at a second look."""
import argparse
import difflib
import fcntl
import hashlib
import os
import re
import shutil
import signal
import subprocess
import sys
import tempfile
import threading
from concurrent.futures import ThreadPoolExecutor, as_completed
from pathlib import Path

from crates import ROOT, Failure, crates, folder_of, with_below

PARTS = ("src", "specs", "proofs")
LISTED = ROOT / "tests/gate/refused.txt"
LIMIT = 7200  # seconds after which a run of rt counts as hung
MARKS = ("file:", "old:", "new:")

# What rt says of an edit; more lines may follow.
SAID = re.compile(r"rt: must-fail (\w+)/(\S+)\.edit: (.*)")
REFUSED = "refused, as it must be"
# An error, or a fact that no proof was found of.
FAULT = re.compile(r"(?:\./)?(?P<place>[\w./+-]+:\d+:\d+): error: (?P<text>.*)|note: (?P<place2>\S+): it is not proved that (?P<text2>.*)")
# An error that says no more than that another declaration was refused.
FOLLOWS = "was not admitted|was rejected"
# What an error of a proof file says where the file was written for other code: it names a goal, a value or a place in the code
# that is not there.
MISFIT = re.compile(r"has no field|is not in scope|has no `|has no .* that can be named")
# The law of laws::Numbered that no refusal has the number 0. src/ can cite no proof but one of specs/, so it stands there.
LAW = re.compile(r"`(?:refused_)?code-above-0`")
FUNCTION = re.compile(r"\s*(?:pub(?:\(crate\))? )?(?:unsafe )?(?:extern \"C\" )?fn (\w+)")
NO_GOAL = re.compile(r"^(?:\./)?proofs/(\S+)/\w+\.antt:\S+ error: .*module `\S+` has no `([^`]+)`", re.M)
ASKED = re.compile(r"^help: `Goals` has no (.*?); rattle asks for (.*?)(?: and \d+ more)?(?:;|$)", re.M)
NO_FIELD = re.compile(r"^(?:\./)?proofs/(\S+)/\w+\.antt:\S+ error: .*has no field `([^`]+)` \(nearest: ([^)]*)\)", re.M)
ROUNDS = 4  # how often new names are put into proof files


class Bad(Exception):
    """An edit that shows nothing; the text says why."""


class Edit:
    """An edit of a crate: its label, and its text."""

    def __init__(self, crate, label, text):
        self.crate = crate
        self.label = label
        self.text = text

    def __str__(self):
        return f"{self.crate}/{self.label}"

    def pairs(self):
        """The replacements: a file's path, the old text and the new, in their order."""
        path = old = None
        for line in self.text.splitlines():
            if line.startswith("file: "):
                path = line[6:]
            elif line.startswith("old: "):
                old = line[5:]
            elif line.startswith("new:"):
                yield path, old, line[4:].removeprefix(" ")
                old = None

    def apply(self, folder):
        """Carries the replacements out on a copy of the crate."""
        first = self.text.partition("\n")[0].strip()
        if not first or first.startswith(MARKS):
            raise Bad("its first line must say what is wrong with it")
        pairs = list(self.pairs())
        if not pairs:
            raise Bad("it has no 'old:' and 'new:' pair")
        for path, old, new in pairs:
            replace(folder, path, old, new)

    def fits(self):
        """Bad where it can't be applied to the crate as it is."""
        with tempfile.TemporaryDirectory() as folder:
            for part in ("src", "specs"):
                if (folder_of(self.crate) / part).is_dir():
                    shutil.copytree(folder_of(self.crate) / part, Path(folder) / part)
            self.apply(Path(folder))


def replace(folder, path, old, new):
    """Replaces a text that a file of the crate has once."""
    if not path or not old:
        raise Bad("a 'new:' line has no 'file:' and 'old:' line before it")
    if not path.startswith(("src/", "specs/")) or ".." in Path(path).parts:
        raise Bad(f"{path} is no file under src/ or specs/")
    if old == new:
        raise Bad("a 'new:' text is its 'old:' text")
    file = folder / path
    if not file.is_file():
        raise Bad(f"the crate has no file {path}")
    text = file.read_text()
    if text.count(old) != 1:
        raise Bad(f"an 'old:' text is {text.count(old)} times in {path}")
    file.write_text(text.replace(old, new))


def edits_of(crate):
    """The edits of a crate, in the order of their labels. A file there that rt would not try is an error."""
    folder = folder_of(crate) / "must-fail"
    for file in folder.rglob("*"):
        if file.is_file() and not (file.suffix == ".edit" and file.parent == folder):
            raise Failure(f"{file.relative_to(ROOT)} is no edit that rt tries: those stand right in must-fail/")
    return [Edit(crate, file.stem, file.read_text()) for file in sorted(folder.glob("*.edit"))]


def fit():
    """Whether all edits fit, and where each is refused is listed; how many times that is not so."""
    failed = 0
    edits = [edit for crate in crates() for edit in edits_of(crate)]
    for edit in edits:
        try:
            edit.fits()
        except Bad as why:
            print(f"edits: {edit}: BAD EDIT: {why}")
            failed += 1
    print(f"edits: {len(edits) - failed} of {len(edits)} fit the crates")
    names = [str(edit) for edit in edits]
    listed = [line.split()[0] for line in LISTED.read_text().splitlines() if line and not line.startswith("#")]
    for name in sorted({*names, *listed}):
        if names.count(name) != 1 or listed.count(name) != 1:
            print(f"edits: {name}: lines in tests/gate/refused.txt: {listed.count(name)}, edits of that name: {names.count(name)}")
            failed += 1
    return failed


# ---- what rt says


def said_of_edits(log):
    """What rt said of edits, by crate and label: its line, and those that follow it."""
    found, name = {}, None
    for line in log.splitlines():
        said = SAID.match(line)
        if said:
            name = said[1], said[2]
            found[name] = said[3]
        elif re.match(r"rt: |== |progress: |\d+ passed", line):
            name = None
        elif name:
            found[name] += f"\n{line}"
    return found


def first_fault(said):
    """The first thing that the prover says against a crate, as a place and a text: an error, or a fact that no proof was found of.
    A text goes on in lines that start with spaces. What could not be checked only because something else was refused is passed
    over."""
    for message in re.split(r"\n(?!  )", said):
        fault = FAULT.match(re.sub(r"\s+", " ", message))
        if fault and not re.search(FOLLOWS, fault[0]):
            return fault["place"] or fault["place2"], fault["text"] or fault["text2"]
    return None, ""


def place_of(place, text):
    """Where a crate was refused, and at what. Bad where that shows nothing."""
    if place is None:
        raise Bad("the prover does not say what it refused")
    if place.startswith("specs/") and not LAW.match(text):
        raise Bad(f"a definition is not well formed, which shows nothing (first at {place})")
    if place.startswith("proofs/") and MISFIT.search(text):
        raise Bad(f"a proof file does not fit the code, which shows nothing (first at {place})")
    # the name of an answer or a lemma begins its error; that of a fact stands in brackets, or ends its line
    names = re.findall(r"^`[^`]+`", text) or re.findall(r"\((`[^`]+`)\)", text) or re.findall(r"`[^`]+`", text)[-1:]
    return f"{place} {names[0]}" if names else place


def is_answered(crate, place):
    """Whether proof files answer goals of the function at a place of src/, which may be its first line or one within it."""
    path, line = place.split(":")[:2]
    lines = (folder_of(crate) / path).read_text().splitlines()
    at = int(line) - 1
    within = lines[at:] if lines[at].startswith("#[") else reversed(lines[: at + 1])
    names = [found[1] for found in map(FUNCTION.match, within) if found]
    return not names or any(folder.name == names[0] for folder in (folder_of(crate) / "proofs").rglob("*") if folder.is_dir())


def by_rt(crate, text):
    """Where the prover refused a crate, by what rt says of an edit; '' where that must be looked at again, None where it is not
    refused. Bad where it shows nothing."""
    if text.startswith("NOT REFUSED"):
        return None
    if text.startswith("NOT TRIED"):
        raise Failure(text.removeprefix("NOT TRIED: "))
    unread = re.match(r"BAD EDIT: the prover cannot read the edited text, .*?: (?:\./)?(specs/\S+): error", text)
    if unread:
        raise Bad(f"a definition is not well formed, which shows nothing (first at {unread[1]})")
    if text.startswith("BAD EDIT: "):
        raise Bad(text.removeprefix("BAD EDIT: "))
    if text.startswith(f"{REFUSED} (only by a limit"):
        raise Bad("the prover could not tell")
    if not text.startswith(REFUSED):
        raise Failure(f"rt said: {text}")
    what = text.removeprefix(REFUSED).lstrip(": ")
    if what.startswith("(only because a proof file names"):
        return ""
    place, fault = first_fault(what)
    # a goal that no proof was found of may have lost its answer by a new name, where the function has answers
    if place and place.startswith("src/") and is_answered(crate, place):
        return ""
    # rt gives the first line of an error alone, and of a fact or a goal that is not there this need not say so
    return "" if re.match(r"(?:`[^`]+`: )?(?:record|module) `", fault) else place_of(place, fault)


# ---- rt, over copies of the crates


def rt(folder, *words, jobs=None):
    """Runs rt in a folder: its exit status, and what it said."""
    if not shutil.which("rt"):
        raise Failure("the Rattle toolchain (rt) is not on the path")
    given = {**os.environ, **({"RT_JOBS": str(jobs)} if jobs else {})}
    pipes = {"stdin": subprocess.DEVNULL, "stdout": subprocess.PIPE, "stderr": subprocess.STDOUT}
    try:
        done = subprocess.run(["rt", *words], cwd=folder, env=given, text=True, errors="replace", timeout=LIMIT, **pipes)
    except subprocess.TimeoutExpired:
        raise Failure(f"rt did not end within {LIMIT} s") from None
    return done.returncode, done.stdout


def link(one, other):
    """What was proved has a second name in a copy, where it can: a check replaces such a file, and never writes into it."""
    try:
        return os.link(one, other) if one.endswith(".oantt") else shutil.copy2(one, other)
    except OSError:
        return shutil.copy2(one, other)


class Trial:
    """Edits tried in copies of the crates, in a folder that is removed afterwards."""

    def __init__(self, room, jobs, names):
        self.room = room
        self.jobs = jobs
        self.names = with_below(names)
        self.base = room / "base"
        self.copy_to(self.base)
        self.making = threading.Lock()
        self.lanes = [room / f"lane{number}" for number in range(jobs)]

    def copy_to(self, top):
        """The files of the crates that are proved, at a place of their own."""
        for name in self.names:
            for part in PARTS:
                if (folder_of(name) / part).is_dir():
                    shutil.copytree(folder_of(name) / part, top / "crates" / name / part)
        rows = (ROOT / "crates.txt").read_text().splitlines(True)
        (top / "crates.txt").write_text("".join(row for row in rows if (row.split(":")[0].split() or [""])[0] in self.names))
        if (ROOT / "HANDLES").is_file():
            shutil.copy(ROOT / "HANDLES", top)

    def said(self, crate, edits):
        """What rt says of edits of a crate, by crate and label."""
        folder = self.base / "crates" / crate / "must-fail"
        shutil.rmtree(folder, ignore_errors=True)
        folder.mkdir()
        for edit in edits:
            (folder / f"{edit.label}.edit").write_text(edit.text)
        status, said = rt(self.base, "must-fail", crate, jobs=self.jobs)
        found = said_of_edits(said)
        if status not in (0, 1) or len(found) != len(edits):
            raise Failure(f"rt must-fail {crate} ended with status {status}, and said: {said.strip()[-600:]}")
        return found

    def ready(self, crate):
        """Has the crate as it is checked, so that edits are checked over that."""
        status, said = rt(self.base / "crates" / crate, "check", "--jobs", str(min(self.jobs, 4)))
        if status != 0:
            raise Failure(f"{crate} is not proved: run 'rt check' in its folder")
        return self.base / "crates" / crate / "out" / "incremental"

    def look(self, edit, kept):
        """Where the prover refused a crate, and at what, once its proof files name what the edited code has; None where it is
        proved. Bad where that shows nothing."""
        lane = self.lanes.pop()
        folder = lane / "crates" / edit.crate
        try:
            if not lane.is_dir():
                self.copy_to(lane)
            edit.apply(folder)
            return self.looked(edit, folder, kept)
        finally:
            # edits of the crates above are looked at in the same copy
            for part in PARTS:
                shutil.rmtree(folder / part, ignore_errors=True)
                if (folder_of(edit.crate) / part).is_dir():
                    shutil.copytree(folder_of(edit.crate) / part, folder / part)
            self.lanes.append(lane)

    def looked(self, edit, folder, kept):
        log = []
        try:
            for _ in range(ROUNDS):
                shutil.rmtree(folder / "out" / "incremental", ignore_errors=True)
                shutil.copytree(kept, folder / "out" / "incremental", copy_function=link)
                status, said = rt(folder, "check", "--jobs", "1")
                log.append(said)
                if status == 0:
                    return None
                if status == 3:
                    raise Bad("the prover could not tell")
                if status != 1 or not re.search(r"^logic=not-proved", said, re.M):
                    raise Bad(f"it did not reach the prover (exit {status})")
                if not renamed(folder / "proofs", said):
                    break
            return place_of(*first_fault(said))
        finally:
            file = ROOT / "target" / "edits" / edit.crate / f"{edit.label}.log"
            file.parent.mkdir(parents=True, exist_ok=True)
            file.write_text("\n-- with new names in the proof files --\n".join(log))

    def outcome(self, edit, text, kept):
        """What is to be said of an edit, and whether it was refused as it must be."""
        try:
            edit.fits()
            place = by_rt(edit.crate, text)
            if place == "":
                place = self.look(edit, kept())
        except Bad as why:
            return f"BAD EDIT: {why}", False
        except (Failure, OSError) as why:
            return f"NOT TRIED: {why}", False
        if place:
            return f"{REFUSED} (first at {place})", True
        return "NOT REFUSED: the crate is still proved with this edit", False


def renamed(proofs, said):
    """Puts names that the edited code has into proof files, in place of those that are gone; whether there were any."""
    changes = {}
    for function, old, nearest in NO_FIELD.findall(said):
        named = "".join(file.read_text() for file in (proofs / function).glob("*.antt"))
        # a field that the proof files name already is another fact's
        new = [name for name in re.findall(r"\.([^\s,]+)", nearest) if not re.search(rf"\.{re.escape(name)}(?![\w-])", named)]
        if len(new) == 1 or new and difflib.get_close_matches(old, new, 1):
            changes.setdefault(function, {})[old] = difflib.get_close_matches(old, new, 1, 0)[0]
    asked = {old: re.findall(r"`([^`]+)`", names) for olds, names in ASKED.findall(said) for old in re.findall(r"`([^`]+)`", olds)}
    for function, old in NO_GOAL.findall(said):
        answers = "".join(file.read_text() for file in (proofs / function).glob("*.antt"))
        new = [name for name in asked.get(old, []) if not re.search(rf"\bgoal\.{re.escape(name)}(?![\w-])", answers)]
        close = difflib.get_close_matches(old, new, 1, 0)
        if close:
            changes.setdefault(function, {})[old] = close[0]
    for function, names in changes.items():
        for file in (proofs / function).glob("*.antt"):
            text = file.read_text()
            for old, new in names.items():
                text = re.sub(rf"(?<![\w-]){re.escape(old)}(?![\w-])", new, text)
            file.write_text(text)
    return bool(changes)


def run(trial, edits, said, report):
    """Tells what edits of one crate come to, by what rt said of them."""
    made = []

    def kept():
        """What a check of the crate as it is kept, made once."""
        with trial.making:
            if not made:
                made.append(trial.ready(edits[0].crate))
        return made[0]

    with ThreadPoolExecutor(trial.jobs) as pool:
        work = {}
        for edit in edits:
            text = said.get((edit.crate, edit.label), "NOT TRIED: rt says nothing of it")
            work[pool.submit(trial.outcome, edit, text, kept)] = edit
        try:
            for job in as_completed(work):
                report(work[job], *job.result())
        finally:
            pool.shutdown(cancel_futures=True)


def chosen(names):
    """The edits that are asked for, by their crates: names are those of crates, or CRATE/LABEL."""
    edits = {}
    for name in names or crates():
        crate, slash, label = name.partition("/")
        if crate not in crates():
            raise Failure(f"crates.txt has no crate {crate}")
        found = [edit for edit in edits_of(crate) if not slash or edit.label == label]
        if slash and not found:
            raise Failure(f"{crate} has no edit {label}")
        if found:
            edits.setdefault(crate, []).extend(found)
    return edits


def try_edits(trial, edits, said):
    """Tries edits, given by their crates; how many were not refused as they must be. said: what a run of rt said already."""
    total = left = sum(map(len, edits.values()))
    if not total:
        raise Failure("there is no edit to try")
    failed = []

    def report(edit, text, refused):
        nonlocal left
        left -= 1
        print(f"edits: {edit}: {text}; {left} left", flush=True)
        if not refused:
            failed.append(edit)

    for crate in [name for name in crates() if name in edits]:
        try:
            run(trial, edits[crate], said if said is not None else trial.said(crate, edits[crate]), report)
        except (Failure, OSError) as why:
            print(f"edits: {crate}: NOT TRIED: {why}", flush=True)
            left -= len(edits[crate])
            failed += edits[crate]
    print(f"edits: {total - len(failed)} of {total} refused, as they must be")
    for edit in failed:
        print(f"edits: FAILED: {edit}")
    return len(failed)


# ---- the self-test, on a small crate

CASES_OF = "slots"
CASES = {
    "says_the_same": (
        "NOT REFUSED",
        "the numbers behind the first one begin at place 1, which says the same\n"
        "file: src/repeats.rt\nold: list[i + 1..]\nnew: list[if i == 0 { 1 } else { i + 1 }..]\n",
    ),
    "says_the_same_of_a_number": (
        "NOT REFUSED",
        "k stands beside a k one too large, which is not taken: the same is said\n"
        "file: src/bits.rt\nold: n.min(1 << 32).next_power_of_two().ilog2()\n"
        "new: (n.min(1 << 32).next_power_of_two().ilog2(), (n.min((1 << 32) - 1) + 1).next_power_of_two().ilog2()).0\n",
    ),
    "wrong": (
        "refused, as it must be",
        "k is one too large where n is a power of 2\n"
        "file: src/bits.rt\nold: n.min(1 << 32).next_power_of_two().ilog2()\n"
        "new: (n.min(1 << 32).next_power_of_two().ilog2(), (n.min((1 << 32) - 1) + 1).next_power_of_two().ilog2()).1\n",
    ),
    "wrong_under_a_new_name": (
        "refused, as it must be",
        "an empty list has a repeat, by a test that no proof file names\n"
        "file: src/repeats.rt\nold:     list.iter()\nnew:     if list.is_empty() { return true; } list.iter()\n",
    ),
    "text_not_there": (
        "BAD EDIT: an 'old:' text is 0 times",
        "its old text is in no file\nfile: src/bits.rt\nold: no such text\nnew: another\n",
    ),
    "no_rattle": (
        "BAD EDIT: it did not reach the prover",
        "a parenthesis is missing\nfile: src/bits.rt\nold: n.min(1 << 32)\nnew: n.min((1 << 32)\n",
    ),
    "misfit": (
        "BAD EDIT: a proof file does not fit the code",
        "the number of the 4 bytes is read in both orders, and the proof file asks for a number that is read once\n"
        "file: src/bits.rt\nold:     u64::from(u32::from_le_bytes(bytes)) % (1 << k.min(32))\n"
        "new:     let a = u32::from_be_bytes(bytes); let b = u32::from_le_bytes(bytes); if a > b { u64::from(a) } else { u64::from(b) }\n",
    ),
    "ill_formed": (
        "BAD EDIT: a definition is not well formed",
        "a definition takes a function for a number\n"
        "file: specs/Fair.antt\nold: value bytes % 2 ^ bits_for n\nnew: value bytes % bits_for\n",
    ),
    "no_first_line": (
        "BAD EDIT: its first line must say",
        "file: src/bits.rt\nold: n.min(1 << 32)\nnew: n.min(1 << 31)\n",
    ),
    "of_a_proof": (
        "BAD EDIT: proofs/bits/bits_for/Answers.antt is no file under",
        "a proof is edited\nfile: proofs/bits/bits_for/Answers.antt\nold: returns c\nnew: returns d\n",
    ),
}


def self_test(trial):
    """Whether each case is told for what it is; how many are not."""
    wrong = []

    def report(edit, text, _):
        expected = CASES[edit.label][0]
        if not text.startswith(expected):
            wrong.append(edit)
            print(f"edits: self-test: {edit}: expected '{expected}', found '{text}'", flush=True)

    edits = [Edit(CASES_OF, label, text) for label, (_, text) in CASES.items()]
    run(trial, edits, trial.said(CASES_OF, edits), report)
    print(f"edits: self-test: {len(CASES) - len(wrong)} of {len(CASES)} edits are told for what they are")
    return len(wrong)


def wrong_usage(why):
    print(f"edits: {why}; --help says more", file=sys.stderr)
    sys.exit(2)


def arguments():
    parser = argparse.ArgumentParser(description=__doc__, formatter_class=argparse.RawDescriptionHelpFormatter)
    parser.add_argument("names", nargs="*", metavar="CRATE[/LABEL]", help="a crate, or one edit (default: all crates)")
    parser.add_argument("--jobs", type=int, default=os.cpu_count() or 1, help="how many at a time (default: the processors)")
    parser.add_argument("--said-by", metavar="LOG", help="go by what rt ci wrote into this file")
    parser.add_argument("--fit", action="store_true", help="see that all edits fit the crates and are listed")
    parser.add_argument("--self-test", action="store_true", help="see that edits that show nothing are told")
    parser.error = wrong_usage
    options = parser.parse_args()
    if options.jobs < 1:
        parser.error("--jobs takes a number from 1 on")
    return options


def stopped(_signal, _frame):
    sys.exit(130)


def in_room(work):
    """Runs work with a folder of its own. It is the same each time, since rt notes where checks were made."""
    name = hashlib.sha256(str(ROOT).encode()).hexdigest()[:12]
    room = Path(tempfile.gettempdir()) / f"edits-{os.getuid()}-{name}"
    with open(f"{room}.lock", "w") as lock:
        try:
            fcntl.flock(lock, fcntl.LOCK_EX | fcntl.LOCK_NB)
        except BlockingIOError:
            raise Failure("another run of edits.py is at work in this checkout") from None
        shutil.rmtree(room, ignore_errors=True)
        room.mkdir(0o700)
        try:
            return work(room)
        finally:
            shutil.rmtree(room, ignore_errors=True)


def main():
    options = arguments()
    signal.signal(signal.SIGTERM, stopped)
    signal.signal(signal.SIGINT, stopped)

    def work(room):
        if options.self_test:
            return self_test(Trial(room, options.jobs, [CASES_OF]))
        edits = chosen(options.names)
        said = said_of_edits(Path(options.said_by).read_text(errors="replace")) if options.said_by else None
        return try_edits(Trial(room, options.jobs, edits), edits, said)

    try:
        failed = fit() if options.fit else in_room(work)
    except (Failure, OSError) as why:
        print(f"edits: {why}", file=sys.stderr)
        sys.exit(2)
    sys.exit(1 if failed else 0)


if __name__ == "__main__":
    main()
