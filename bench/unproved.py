"""Builds programs without their proof, into all but the machine code that a proved build would have: see modules.py.

Of what isn't proved `rt try` alone compiles anything. Its toolchain's clang is given a stand-in here, which keeps the module that it is to
compile with checks, and stops. From the room this takes some minutes, once for each state of the sources.
"""
import hashlib
import os
import shutil
import subprocess
import sys
import tempfile
from pathlib import Path

import modules
import room

# what of a trial's words for clang makes it one with checks, and what a proved build has instead
TRIED = {"-O0", "-fsanitize=address"}
PROVED = ["-O3", "-Xclang", "-fmerge-functions", "-mllvm", "-mergefunc-use-aliases"]
# The clang of a trial. What it is asked before, as whether it works, the true one does.
STAND_IN = """#!/bin/sh
case " $* " in *" -fsanitize=address "*)
    cp module.bc "{place}/module.bc"
    printf '%s\\n' "$@" > "{place}/words"
    exit 1;;
esac
exec "{clang}" "$@"
"""


def build(crate):
    """Builds a program of the repository or of bench/proved, unless it is built already, and gives its path."""
    place = room.kept()
    room.make(place)
    program = place / "unproved" / crate
    made_of = program.with_suffix(".sources")
    now = sources(place)
    if program.exists() and made_of.exists() and made_of.read_text() == now:
        return program
    print(f"building {crate} without its proof in {program.parent}, which takes some minutes", file=sys.stderr, flush=True)
    program.parent.mkdir(exist_ok=True)
    made_of.unlink(missing_ok=True)
    with tempfile.TemporaryDirectory(prefix="bench-unproved-") as name:
        made = Path(name, crate)
        compile_and_link(place / "crates", crate, made)
        shutil.copy2(made, program.with_suffix(".new"))
    os.replace(program.with_suffix(".new"), program)
    made_of.write_text(now)
    return program


def sources(place):
    """A sum of all that a build reads: the sources in a room, the toolchain and what is here."""
    total = hashlib.sha256(said_by("rt", "version").encode())
    code = [Path(__file__), Path(modules.__file__)]
    for file in [*code, place / "crates.txt", *sorted(place.glob("crates/*/src/**/*.rt"))]:
        content = file.read_bytes()
        total.update(f"{file} {len(content)}\n".encode() + content)
    return total.hexdigest()


def said_by(*words):
    return subprocess.run(words, stdin=subprocess.DEVNULL, capture_output=True, text=True).stdout.strip()


def compile_and_link(crates, crate, program):
    """Makes the program from the sources of its crate and those below it."""
    kit = Path(said_by("rt", "doc")).parent
    clang, folder = kit / "toolchain/bin/clang", program.parent
    said = tried(kit, crates / crate, folder)
    if not (folder / "module.bc").exists():
        sys.exit(f"{said}bench/run: {crate} could not be compiled; the lines above say why")

    def sources_of(name):
        return next((it / "src" for it in (crates / name, kit / "rattle" / name) if it.is_dir()), None)

    call(clang, "-x", "ir", "-S", "-emit-llvm", "-Xclang", "-disable-llvm-passes", "module.bc", "-o", "tried.ll", cwd=folder)
    text = modules.as_proved((folder / "tried.ll").read_text(), modules.Hints(sources_of))
    (folder / "module.bc").write_text(text)
    words = [word for word in (folder / "words").read_text().splitlines() if word not in TRIED]
    call(clang, *words, *PROVED, cwd=folder)
    linked = ["--target", "x86_64-unknown-linux-gnu", "--toolchain", kit / "toolchain", "-o", program, folder / "module.o"]
    call(kit / "bin/rattle-link", *linked, kit / "c/libos_c.a", kit / "c/liblibc_c.a")


def tried(kit, folder, place):
    """Has `rt try` compile the program in a folder, up to the module with checks, which is left in a place. Gives what it said."""
    with tempfile.TemporaryDirectory(prefix="bench-kit-") as name:
        # `rt` takes what it needs from beside where its own files lie
        other = Path(name)
        for part in kit.iterdir():
            (other / part.name).symlink_to(part)
        for part in ("bin", "toolchain", "toolchain/bin"):
            linked_anew(kit / part, other / part)
        for script in ("rt", "rtlib.py"):
            (other / "bin" / script).unlink()
            shutil.copy2(kit / "bin" / script, other / "bin" / script)
        put_script(other / "toolchain/bin/clang", STAND_IN.format(place=place, clang=kit / "toolchain/bin/clang"))
        # `rt` asks the checker for a hint meanwhile, which costs as much again
        put_script(other / "bin/rattle", "#!/bin/sh\nexit 1\n")
        words = [other / "bin/rt", "try", "--steps", "1", "--seconds", "1"]
        run = subprocess.run(words, cwd=folder, stdin=subprocess.DEVNULL, capture_output=True, text=True)
        return run.stdout + run.stderr


def linked_anew(folder, copy):
    """Puts a folder of links to what is in a folder into the place of a link to the folder."""
    copy.unlink()
    copy.mkdir()
    for it in folder.iterdir():
        (copy / it.name).symlink_to(it)


def put_script(path, text):
    """Puts a script into the place of a link to a tool."""
    path.unlink()
    path.write_text(text)
    path.chmod(0o755)


def call(*words, cwd=None):
    """Runs a tool, and ends where it fails."""
    run = subprocess.run(words, cwd=cwd, stdin=subprocess.DEVNULL, stdout=subprocess.PIPE, stderr=subprocess.STDOUT, text=True)
    if run.returncode:
        sys.exit(f"{run.stdout[-2000:]}bench/run: {Path(words[0]).name} failed")
