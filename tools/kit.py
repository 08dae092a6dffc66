"""What the tools share: the crates, what rt keeps of them, the kit, and one run of its prover."""
import os
import re
import shutil
import subprocess
from pathlib import Path

ROOT = Path(__file__).resolve().parent.parent
TARGET = ROOT / "target"
KIT = Path(os.environ.get("RATTLE_HOME") or Path(shutil.which("rt")).resolve().parent.parent)
# how many checks run at once
JOBS = int(os.environ.get("RT_JOBS") or len(os.sched_getaffinity(0)))


def crates():
    """The crates of crates.txt, each with what it depends on."""
    return {words.split()[0]: deps.split() for words, deps in rows()}


def rows():
    """The lines of crates.txt: a name, maybe with its kind, and what it depends on."""
    lines = (line.split("#")[0] for line in (ROOT / "crates.txt").read_text().splitlines())
    return [line.partition(":")[::2] for line in lines if ":" in line]


def below(crate, known):
    """The crates of the repository that a crate rests on, each after those that it rests on itself."""
    found = []
    for dep in known[crate]:
        if dep in known:
            found += [name for name in [*below(dep, known), dep] if name not in found]
    return found


def out(crate, root=ROOT):
    """The folder in which rt leaves what it made of a crate: the program, rlib/, incremental/."""
    return root / "crates" / crate / "out"


def built(crate):
    """A library as another crate reads it, as `rt check` of a crate above it makes it."""
    return out(crate) / "rlib" / f"{crate}.rlib"


def kept(crate):
    """The checked modules that `rt check` keeps of a crate."""
    return out(crate) / "incremental"


def unproved(names):
    """Has `rt` prove these crates, so that what it keeps of them and of those below is of the files as they stand; the crates that it doesn't prove."""
    if len(names) * 2 > len(crates()):
        said = rt(ROOT, "all", "check", "--jobs", str(JOBS)).stdout
        return [name for name in names if not re.search(rf"^{name}: ok$", said, re.M)]
    return [name for name in names if rt(ROOT / "crates" / name, "check").returncode]


def rt(folder, *words):
    """Runs a command of rt in a folder."""
    return subprocess.run(["rt", *words], cwd=folder, stdin=subprocess.DEVNULL, stdout=subprocess.PIPE, stderr=subprocess.STDOUT, text=True, errors="replace")


def prover(verb, crate, deps, source, *more):
    """Runs the prover on a crate whose files are in a folder; libraries are the repository's as rt built them, else the kit's."""
    known = crates()
    root = next(f for f in (source / "src" / "lib.rt", source / "src" / "main.rt") if f.exists())
    words = [KIT / "bin" / "rattle", verb, "--crate-name", crate, root, "--extern", f"std={KIT}/rlibs/std.rlib", "-L", f"dependency={KIT}/rlibs"]
    for dep in deps:
        words += ["--extern", f"{dep}={built(dep) if dep in known else KIT / 'rlibs' / f'{dep}.rlib'}"]
    for name in known:
        words += ["-L", f"dependency={built(name).parent}"] if built(name).exists() else []
    words += ["--crate-type", "staticlib"] if f"{crate} staticlib" in (" ".join(name.split()) for name, _ in rows()) else []
    words += ["--antt-project", KIT / "rattle" / "logic" / "antt-project.json", "--logic-built", KIT / "logic_built", *more]
    return subprocess.run(words, stdin=subprocess.DEVNULL, stdout=subprocess.PIPE, stderr=subprocess.STDOUT, text=True, errors="replace")


def listed(docs, head):
    """The rows of a table of a page of docs/, by the table's head."""
    rows = docs[docs.index(head) + 2:]
    return rows[:rows.index("")]
