"""Checks of examples and of the programs in Python and bash."""
import ast
import re
import subprocess
import sys
from importlib.machinery import SourceFileLoader
from importlib.util import module_from_spec, spec_from_loader

from checks.tree import CRATES, TOP, files, shown

COPIES = CRATES / "tf_worked/data"
GATE = TOP / ".ci/run"
OLDEST_PYTHON = (3, 8)
SHELL = re.compile(rb"#!.*\b(ba)?sh\b")
PYTHON = re.compile(rb"#!.*\bpython3\b")


def first_line(path):
    with open(path, "rb") as file:
        return file.readline()


def said_by(tool, *words):
    """The exit status of a program in Python, what it said on standard output, and what it said beside that."""
    how = {"stdin": subprocess.DEVNULL, "stdout": subprocess.PIPE, "stderr": subprocess.PIPE, "universal_newlines": True}
    ran = subprocess.run([sys.executable, str(TOP / tool), *words], **how)
    return ran.returncode, ran.stdout.strip(), ran.stderr.strip()


def recipes():
    """Each recipe is a script and its output, and the crates that run recipes have equal copies."""
    if COPIES.is_dir():
        status, said, beside = said_by("tools/examples", "--check")
        if status:
            yield from (said or beside).splitlines()


def service():
    """The example that runs the program from another one reads what it prints."""
    status, _, beside = said_by("examples/test_payment_service.py")
    if status:
        yield beside


def stubs():
    """tools/stubs leaves the contract of a function and takes its body, and reads every source of the crates."""
    loader = SourceFileLoader("stubs", str(TOP / "tools/stubs"))
    tool = module_from_spec(spec_from_loader("stubs", loader))
    loader.exec_module(tool)
    given = "impl A {\n    /// {\n    fn f(&self, c: char) -> u8\n        ensures least { c ≡ '{' → result ≡ 1 }\n    {\n        g(\"}\") // }\n    }\n}\n"
    wanted = given.replace('g("}") // }', "absurdity::absurd();\n        unreachable!()")
    if tool.stubbed(given) != wanted:
        yield f"tools/stubs makes of a function with a contract:\n{tool.stubbed(given)}"
    for path in files(".rt"):
        try:
            tool.stubbed(path.read_text(encoding="utf-8"))
        except (IndexError, KeyError, ValueError) as error:
            yield f"{shown(path)}: tools/stubs can't read it: {error!r}"


def python():
    """Each program in Python is one for the oldest version that the toolchain takes."""
    for path in files():
        if path.suffix != ".py" and (path.suffix or not PYTHON.match(first_line(path))):
            continue
        text = path.read_bytes()
        try:
            ast.parse(text, str(path), feature_version=OLDEST_PYTHON)
            compile(text, str(path), "exec", dont_inherit=True)
        except (SyntaxError, ValueError) as error:
            yield f"{shown(path)}:{getattr(error, 'lineno', 1)}: {error}"


def is_shell(path):
    """Whether a file is a program in bash; the gate's needs no first line that says so."""
    first = first_line(path)
    return path.suffix == ".sh" or (not path.suffix and bool(SHELL.match(first))) or (path == GATE and not first.startswith(b"#!"))


def shell():
    """Each program in bash parses."""
    for path in filter(is_shell, files()):
        ran = subprocess.run(["bash", "-n", str(path)], stdin=subprocess.DEVNULL, stderr=subprocess.PIPE, universal_newlines=True)
        if ran.returncode:
            yield f"{shown(path)}: {' '.join(ran.stderr.split())}"


def launcher():
    """./tigerforest does what it says, over a toolchain that is made up."""
    status, said, beside = said_by("tools/test_launcher")
    if status:
        yield f"{(said or beside).splitlines()[-1]}: tools/test_launcher shows how"


def stale_records():
    """The lines of tools/must-fail on edits that have to be tried again."""
    status, said, _ = said_by("tools/must-fail", "--stale")
    return said.splitlines() if status == 0 else []
