"""The crates of this clone, and the words by which the kit's prover checks one of them over libraries that stand: what the scripts of
this folder share. It has no command of its own."""
import functools
import importlib.machinery
import os
import shutil
import subprocess
import sys
import types
from pathlib import Path

sys.dont_write_bytecode = True
ROOT = Path(__file__).resolve().parent.parent


@functools.cache
def kit():
    """The folder of the kit, by its command `rt`."""
    page = subprocess.run(["rt", "doc"], capture_output=True, text=True, check=True).stdout
    return Path(os.path.realpath(page.strip())).parent


@functools.cache
def kit_name():
    """The line by which the kit names itself."""
    return subprocess.run(["rt", "version"], capture_output=True, text=True, check=True).stdout.strip()


def kit_script(name):
    """One of the kit's own scripts as a module. A later kit may have other functions in it."""
    script = types.ModuleType(name)
    script.__file__ = str(kit() / "bin" / name)
    importlib.machinery.SourceFileLoader(name, script.__file__).exec_module(script)
    return script


def read_crates(path=ROOT / "crates.txt"):
    """The crates of crates.txt, in its order, each with what its line says that it stands on: crates, and libraries of the kit."""
    crates = {}
    for line in path.read_text().splitlines():
        name, colon, below = line.partition(":")
        if colon and not name.startswith("#"):
            crates[name.split()[0]] = below.split()
    return crates


def all_below(crate, crates):
    """The crates that this one stands on, at any depth."""
    found = {}

    def visit(name):
        for below in crates.get(name, []):
            if below in crates and below not in found:
                found[below] = None
                visit(below)

    visit(crate)
    return list(found)


def lowest_first(crates):
    """The names of these crates, each behind those that it stands on."""
    return sorted(crates, key=lambda crate: len(all_below(crate, crates)))


def compiler_of(texts, copy):
    """Makes a copy of this clone, with these texts in place of its files' own. Gives the command that compiles its program without proofs,
    and where that program is then, unless it fails."""
    shutil.copytree(ROOT, copy, symlinks=True, ignore=shutil.ignore_patterns("out", ".git", "__pycache__"))
    for path, text in texts.items():
        (copy / path).write_text(text, encoding="utf-8")
    # (so ./streams finds no proved program, and its run says nothing)
    (copy / "prove").write_text("#!/bin/sh\nexit 1\n")
    (copy / "tools/run.py").write_text("")
    return [copy / "streams", "load", "1"], copy / "out/unproved/ks_cli"


def commit_now():
    """The commit of this clone; with a + where its crates have changes that are in no commit."""
    git = ["git", "-C", str(ROOT)]
    name = subprocess.run([*git, "rev-parse", "--short", "HEAD"], capture_output=True, text=True).stdout.strip()
    changed = subprocess.run([*git, "status", "--porcelain", "--", "crates", "crates.txt"], capture_output=True, text=True).stdout
    sources = [line for line in changed.splitlines() if not line.endswith((".md", ".edit"))]
    return name + "+" * bool(sources)


def clones_of_libraries():
    """The clones whose libraries are taken: those of the environment's LIBS, or this one."""
    return [Path(clone) for clone in os.environ.get("LIBS", str(ROOT)).split()]


def library_of(name, clones):
    """The folder of a crate's library: in the first clone that has it."""
    kept = [clone / "crates" / name / "out/rlib" for clone in clones]
    return next((one for one in kept if (one / f"{name}.rlib").exists()), kept[0])


def library_words(crate, clones, sources=()):
    """The words that name the libraries below a crate. `sources`: crates that are read from source in their place, lowest first."""
    crates, words, of_kit = read_crates(), [], {"std", "core"} if sources else {"std"}
    for name in sources:
        words += ["--lib", f"{name}:{','.join(['core', 'std', *crates[name]])}={ROOT / 'crates' / name / 'src/lib.rt'}"]
    for name in dict.fromkeys(sum((crates[one] for one in [crate, *sources]), [])):
        if name not in crates:
            of_kit.add(name)
        elif name not in sources:
            words += ["--extern", f"{name}={library_of(name, clones) / name}.rlib"]
    for name in sorted(of_kit):
        words += ["--extern", f"{name}={kit()}/rlibs/{name}.rlib"]
    words += ["-L", f"dependency={kit()}/rlibs"]
    for name in all_below(crate, crates):
        if name not in sources:
            words += ["-L", f"dependency={library_of(name, clones)}"]
    return words


def prover_words(verb, crate, clones, sources=(), jobs="2"):
    """The command that checks (or, by the verb build, builds) a crate from its folder, without what the caller has to add."""
    is_program = (ROOT / "crates" / crate / "src/main.rt").exists()
    root = "src/main.rt" if is_program else "src/lib.rt"
    command = [kit() / "bin/rattle", verb, "--crate-name", crate, root, *library_words(crate, clones, sources)]
    command += ["--antt-project", kit() / "rattle/logic/antt-project.json", "--logic-built", kit() / "logic_built"]
    return [str(word) for word in [*command, "--links", f"{crate}=", "--jobs", jobs]]
