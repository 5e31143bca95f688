"""The must-fail edits. A file has one wrong answer, which it is named for, or several in one check of the crate, each
behind a line `wrong: NAME`. Each of several stands in a function of its own, so that what the prover says of a function
is said of one wrong answer alone; or, where definitions are changed, it has a line `fact: NAME`, of a fact that fails
for it and for none of the others (tests/refused)."""
import functools
import glob
import hashlib
import os
import re
import shutil
import subprocess
import tempfile

PARTS = ("src", "specs", "proofs")


def wrong_answers(text, label):
    """The wrong answers of an edit file: for each name its changes, the file with the old and the new text."""
    name, file, old, found = label, "", "", {}
    for line in text.split("\n"):
        kind, _, rest = line.partition(": ")
        if kind == "wrong":
            name = rest
        elif kind == "file":
            file = rest
        elif kind == "old":
            old = rest
        elif kind in ("new", "new:"):
            found.setdefault(name, []).append((file, old, rest))
    return found


def unread(text):
    """Lines that nobody reads: an old or a new text has one line, and what follows it would be passed over in
    silence."""
    return [line for line in text.split("\n") if line and not re.match(r"#|(wrong|fact|file|old|new):( |$)", line)]


def facts(text):
    """The fact of each wrong answer that names one."""
    return dict(re.findall(r"(?m)^wrong: (.*)\nfact: (.*)$", text))


def files(root):
    """Crate, label and text of each edit file."""
    for path in sorted(glob.glob(os.path.join(root, "crates", "*", "must-fail", "*.edit"))):
        with open(path, encoding="utf-8") as f:
            yield path.split(os.sep)[-3], os.path.basename(path)[: -len(".edit")], f.read()


def heads(source):
    """Where each function of a source begins, and its path, as proofs/ has it."""
    owner, at, found = "", 0, []
    for line in source.split("\n"):
        head = re.match(r"(?:impl|(?:pub )?trait)(?:<[^>]*>)? (\w+)(?:<[^>]*>)?(?:: \w+)? \{$", line)
        owner = head.group(1) + "/" if head else owner
        head = re.match(r'(\s*)(?:pub(?:\(\w+\))? )?(?:const )?(?:extern "C" )?fn (\w+)', line)
        if head:
            found.append((at, (owner if head.group(1) else "") + head.group(2)))
        at += len(line) + 1
    return found


def function_from(source, place):
    """The path of the function whose head or body is at a place of a source, or None before the first."""
    return next((name for at, name in reversed(heads(source)) if at <= place), None)


def function_at(source, place):
    """The same, but None outside of all bodies."""
    found, body, at = None, False, 0
    starts = dict(heads(source))
    for line in source.split("\n"):
        if at in starts:
            found, body = starts[at], False
        if at + len(line) >= place:
            return found if body else None
        body = body or bool(found and re.search(r"(^\s*|\) |\w )\{$", line) and "ensures" not in line)
        at += len(line) + 1
    return None


# ---- what the prover says of a crate

# What follows from another error, or says only that a proof file does not fit.
EMPTY = re.compile(r"was not admitted|was rejected|that can be named from here|is not in scope|has no parameter|"
                   r"has no field|this file exports no")


def refusals(log, source):
    """The functions, as proofs/ has them, and the other files in which a fact fails, and the facts by their names."""
    places, names = set(), set()
    for file, said in re.findall(r"(?m)^(?:\./)?((?:src|specs|proofs)/\S+?)(?::\d+:\d+)?: error: (.*(?:\n  .*)*)", log):
        if not EMPTY.search(said):
            proof = re.match(r"proofs/(.*)/(?:Answers|Invariants|Proof)\.antt$", file)
            places.add(proof.group(1) if proof else file)
            names.update(re.match(r"`([^`]+)`:|", said).groups())
    # a goal of the code that nothing proves
    lines = source.split("\n")
    for line, goal in re.findall(r"(?m)^note: src/lib\.rt:(\d+):\d+: it is not proved that .*?\(`([^`]+)`\)", log):
        # an exported function's place is that of its attribute
        head = next((i for i in range(int(line) - 1, len(lines)) if not lines[i].lstrip().startswith("#[")), 0)
        at = sum(len(above) + 1 for above in lines[:head])
        places.add(function_from(source, at))
        names.add(goal)
    return places, names - {None}


# ---- a check of a crate with changes

@functools.lru_cache(None)
def built_on(root):
    """For each crate of crates.txt those of this repository that it is built on, all the way down, and its line."""
    with open(os.path.join(root, "crates.txt"), encoding="utf-8") as f:
        lines = [line.split("#")[0].strip() for line in f]
    named = {line.split(":")[0].split()[0]: line for line in lines if ":" in line}

    def below(crate, found):
        for name in named[crate].split(":")[1].split():
            if name in named and name not in found:
                found.append(name)
                below(name, found)
        return found

    return {crate: (below(crate, []), line) for crate, line in named.items()}


@functools.lru_cache(None)
def sum_of(root, crate):
    """A sum of a crate's sources, definitions and proofs."""
    found = hashlib.sha256()
    for part in PARTS:
        for folder, folders, names in os.walk(os.path.join(root, "crates", crate, part)):
            folders.sort()
            for name in sorted(names):
                path = os.path.join(folder, name)
                found.update(os.path.relpath(path, root).encode() + b"\0")
                with open(path, "rb") as f:
                    found.update(f.read() + b"\0")
    return found.hexdigest()


@functools.lru_cache(None)
def kit():
    return subprocess.run(["rt", "version"], capture_output=True, text=True, check=True).stdout


def key(root, crate, changes):
    """What the outcome of a check with these changes stands on."""
    below = built_on(root)[crate][0]
    sums = [sum_of(root, name) for name in [crate, *sorted(below)]]
    return hashlib.sha256(repr((kit(), sums, changes)).encode()).hexdigest()[:16]


def linked(file, to):
    """What a check has proved is not written again, but replaced, so that a second name for it will do."""
    try:
        if file.endswith((".oantt", ".a")):
            return os.link(file, to)
    except OSError:
        pass
    return shutil.copy2(file, to)


def checked(root, crate, changes, jobs=()):
    """Status and text of a check of the crate with these changes, on a copy, over what its last check left in out/."""
    below = built_on(root)[crate][0]
    with tempfile.TemporaryDirectory(prefix="wrong-") as work:
        for name in below:
            shutil.copytree(os.path.join(root, "crates", name), os.path.join(work, "crates", name),
                            copy_function=linked, ignore=shutil.ignore_patterns("incremental", "must-fail"))
        there, here = os.path.join(root, "crates", crate), os.path.join(work, "crates", crate)
        for part in (*PARTS, "out"):
            if os.path.isdir(os.path.join(there, part)):
                shutil.copytree(os.path.join(there, part), os.path.join(here, part), copy_function=linked)
        with open(os.path.join(work, "crates.txt"), "w", encoding="utf-8") as f:
            f.write("".join(built_on(root)[name][1] + "\n" for name in [*below, crate]))
        for file, old, new in changes:
            path, text = os.path.join(here, file), ""
            if os.path.isfile(path):
                with open(path, encoding="utf-8") as f:
                    text = f.read()
            if text.count(old) != 1:
                return 2, f"{file} has not once the text: {old}\n"
            with open(path, "w", encoding="utf-8") as f:
                f.write(text.replace(old, new))
        run = subprocess.run(["rt", "check", *jobs], cwd=here, stdout=subprocess.PIPE, stderr=subprocess.STDOUT,
                             text=True, errors="replace")
        return run.returncode, run.stdout
