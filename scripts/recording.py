"""The recording copy of the sources: what scripts/recorded builds and runs.

Each access that `lot_whole` makes is put between two looks at the clock, and written down by record.c: 25 places, a kind for each. The copy is built
unproved, as scripts/program builds; nothing of it enters the proved programs.
"""

import os
import re
import shutil
import subprocess
import tempfile

from built import TOP, crates_below, sum_of

HERE = os.path.dirname(os.path.realpath(__file__))

# Where a thread acts by its pass, on a key that it names, or that its root has.
BY_PASS, BY_ROOT = ("pass.thread()", "key"), ("pass.thread()", "root.key()")
# (the root that posts lies without its number: it is that of the thread's access before, or it posted another letter)
POSTS = ("thread", "recording::last_key()")

# The functions of lot_whole that make accesses: of each its accesses in order, by their kinds; who acts on which key; and what else is to be known.
PLACES = {
    "try_take": (["try"], BY_PASS, []),
    "take": (["take"], BY_PASS, []),
    "take_free": (["take_free"], BY_PASS, []),
    "mark": (["mark"], BY_PASS, []),
    "park": (["park"], BY_ROOT, []),
    "free": (["free"], BY_PASS, []),
    "pass_on": (["pass", "pass"], BY_ROOT, ["fair as u64", "more as u64", "recording::sleeper(first)"]),
    "enlist": (["enlist"], BY_ROOT, ["lock as u64"]),
    "look": (["look"], BY_PASS, []),
    "lower": (["lower"], BY_PASS, []),
    "call": (["call", "call"], BY_ROOT, ["count as u64", "more as u64", "taken as u64"]),
    "sweep": (["sweep"], BY_ROOT, ["taken as u64"]),
    "try_take_permit": (["look_try"], BY_PASS, []),
    "take_permit": (["look_take"], BY_PASS, []),
    "take_from": (["take_from"], BY_PASS, ["seen"]),
    "mark_permit": (["mark_permit"], BY_PASS, []),
    "park_permit": (["park_permit"], BY_ROOT, []),
    "free_permit": (["look_free", "free_from"], BY_PASS, []),
    "pass_permit": (["pass_permit"], BY_ROOT, ["recording::sleeper(first)", "more as u64"]),
    "clear": (["clear"], BY_ROOT, []),
    "post": (["post"], POSTS, ["token as u64"]),
    "collect": (["collect"], ("pass.thread()", "0"), []),
}
# What the second access of this function expects.
EXPECTS = {"free_from": ["seen"]}

# The kinds in the order of their numbers in a list. An opening has its numbers, and a line more for each semaphore.
KINDS = ["open", "permits", *dict.fromkeys(kind for kinds, _, _ in PLACES.values() for kind in kinds)]

DECLARED = """//! What a recording copy writes down.
unsafe extern "C" {
    pub safe fn record_clock() -> u64;

    safe fn record_grown(most: u64) -> u64;

    safe fn record_last_key() -> u64;

    pub safe fn record_access(
        from: u64,
        kind: u64,
        thread: u64,
        key: u64,
        found: u64,
        a: u64,
        b: u64,
        c: u64,
        d: u64,
    );
}

pub fn sleeper(first: Option<usize>) -> u64 {
    match first {
        Some(thread) => thread as u64,
        None => u64::MAX,
    }
}

/// The word in which a thread found this letter.
pub fn letter(found: Option<u32>) -> u64 {
    match found {
        Some(token) => token as u64 + 1,
        None => 0,
    }
}

/// How many threads the table is to serve by now, in a copy in which it grows while they run.
pub fn grown(most: usize) -> usize {
    record_grown(most as u64) as usize
}

/// The key of the access that the thread made last.
pub fn last_key() -> u64 {
    record_last_key()
}

pub fn opening(threads: usize, locks: usize, conds: usize, permits: &[u32]) {
    let from = record_clock();
    record_access(from, 0, threads as u64, locks as u64, conds as u64, permits.len() as u64, 0, 0, 0);
    for sem in 0..permits.len() {
        let from = record_clock();
        record_access(from, 1, 0, (locks + conds + sem) as u64, permits[sem] as u64, 0, 0, 0, 0);
    }
}
"""

STEP = re.compile(r"^( +)(?:let (\(.*\)|\w+) = )?words\.(\w+)::<", re.M)
OPENING = "        let keys = locks + conds + permits.len();\n"


class Unfit(Exception):
    """The sources are not as the recording copy expects them."""


def end_of_call(text, at):
    """Where the call that begins there ends, behind its last parenthesis."""
    depth, at = 0, text.index(">(", at) + 1
    while True:
        depth += {"(": 1, ")": -1}.get(text[at], 0)
        at += 1
        if depth == 0:
            return at


def recorded_step(text, found, kind, who, what):
    """One access, with what writes it down, and where it ended."""
    indent, names = found[1], found[2]
    end = end_of_call(text, found.end())
    call = text[text.index("words.", found.start()) : end]
    is_last = text[end] != ";"
    word = "0"
    stores = found[3].startswith(("store", "post"))
    if names and names.startswith("(") and not stores:
        last = names[1:-1].split(", ")[-1]
        word = "word_found" if last == "_" else last
        names = f"{names[: -len(last) - 1]}{word})"
    elif is_last and not stores:
        names, word = "told", "recording::letter(told.1)" if found[3] == "collect" else "told.1"
    of = [*what, *EXPECTS.get(kind, []), "0", "0", "0", "0"][:4]
    lines = [
        f"let by_thread = {who[0]} as u64;",
        f"let of_key = {who[1]} as u64;",
        "let from = recording::record_clock();",
        f"let {names or 'told'} = {call};",
        f"recording::record_access(from, {KINDS.index(kind)}, by_thread, of_key, {word}, {', '.join(of)});",
        *(["told"] if is_last else []),
    ]
    return "\n".join(indent + line for line in lines), end + (0 if is_last else 1)


def recorded_source(text, counts):
    """A file of lot_whole in which each access is written down. Counts how many of each function were found."""
    made, at = [], 0
    for found in STEP.finditer(text):
        function = re.findall(r"fn (\w+)", text[: found.start()])[-1]
        # these change nothing, and no recorded command counts
        if found[3] in ("check_two", "check_root", "exchange") or function == "count":
            continue
        number = counts.get(function, 0)
        if function not in PLACES or number >= len(PLACES[function][0]):
            raise Unfit(f"{function} of lot_whole makes an access that scripts/recording.py does not know")
        counts[function] = number + 1
        kinds, who, what = PLACES[function]
        step, end = recorded_step(text, found, kinds[number], who, what)
        made += [text[at : found.start()], step]
        at = end
    text = "".join([*made, text[at:]])
    return text.replace("use crate::words::", "use crate::recording;\nuse crate::words::", 1) if made else text


def edit(path, old, new):
    with open(path) as file:
        text = file.read()
    if text.count(old) != 1:
        raise Unfit(f"{os.path.relpath(path, TOP)} has not once: {old.strip()}")
    with open(path, "w") as file:
        file.write(text.replace(old, new))


def make_copy(folder, edits=()):
    """Writes the recording copy into the folder, with these further edits: (crate, file of its src/, old, new)."""
    crates = crates_below("lotstress")
    for crate in crates:
        for part in ("src", "specs", "proofs"):
            if os.path.isdir(f"{TOP}/crates/{crate}/{part}"):
                shutil.copytree(f"{TOP}/crates/{crate}/{part}", f"{folder}/crates/{crate}/{part}")
    shutil.copytree(HERE, f"{folder}/scripts")
    with open(f"{TOP}/crates.txt") as file:
        kept = [line for line in file if line.split(":")[0] in crates]
    with open(f"{folder}/crates.txt", "w") as file:
        file.writelines(kept)
    shutil.copy(f"{TOP}/HANDLES", folder)
    whole, counts = f"{folder}/crates/lot_whole", {}
    for crate, name, old, new in edits:
        edit(f"{folder}/crates/{crate}/src/{name}", old, new)
    for name in sorted(os.listdir(f"{whole}/src")):
        with open(f"{whole}/src/{name}") as file:
            text = recorded_source(file.read(), counts)
        with open(f"{whole}/src/{name}", "w") as file:
            file.write(text)
    missing = [name for name, (kinds, _, _) in PLACES.items() if counts.get(name) != len(kinds)]
    if missing:
        raise Unfit(f"lot_whole has not all accesses of {', '.join(missing)}")
    with open(f"{whole}/src/recording.rt", "w") as file:
        file.write(DECLARED)
    edit(f"{whole}/src/lib.rt", "mod apart;\n", "mod apart;\npub mod recording;\n")
    opening = "        crate::recording::opening(threads, locks, conds, permits.as_slice());\n"
    edit(f"{whole}/src/opening.rt", OPENING, OPENING + opening)
    os.mkdir(f"{whole}/c")
    shutil.copy(f"{HERE}/record.c", f"{whole}/c")


def build(place, edits=()):
    """Builds the recording copy and puts its program there. Answers what was said, where it could not be built."""
    os.makedirs(os.path.dirname(place), exist_ok=True)
    with tempfile.TemporaryDirectory(prefix="recorded-") as folder:
        make_copy(folder, edits)
        around = {**os.environ, "RT_ALLOW_C": "lot_whole"}
        words = [f"{folder}/scripts/program", "lotstress", "--help"]
        ran = subprocess.run(words, env=around, capture_output=True, text=True, errors="replace")
        if ran.returncode:
            return ran.stdout + ran.stderr
        shutil.copy(f"{folder}/crates/lotstress/out/quick/lotstress", f"{place}.new")
    os.replace(f"{place}.new", place)
    return None


def checksum():
    """Of all that the recording program is made from."""
    texts = [sum_of("lotstress")]
    for name in ("record.c", "recording.py"):
        with open(f"{HERE}/{name}") as file:
            texts.append(file.read())
    return "\n".join(texts)
