"""Compiles a program of this repository without any proof. `rt try` compiles it to run it under checks; here the checks and the
watch over memory are taken out of what it would compile, as a proof does, and the rest is compiled and linked by the kit. The
result shows nothing of the program's rightness."""
import os
import re
import shutil
import subprocess
from pathlib import Path
from typing import IO, Any, Callable, Sequence, Union

from .begun import begun

CLANG = """#!/bin/sh
# what rt try compiles last, with its checks, is kept as text; anything else is compiled as it stands
case " $* " in
  *" -fsanitize=address "*)
    '{clang}' --no-default-config -x ir module.bc -S -emit-llvm -Xclang -disable-llvm-passes -o '{work}/module.ll'
    exit 1 ;;
esac
name=$(basename "$0")
exec '{tools}'/"$name" "$@"
"""
RATTLE = """#!/bin/sh
# the check that rt try begins beside the run gives only a hint, and takes as long as the rest
case " $* " in *" --start no function "*) exit 0 ;; esac
exec '{rattle}' "$@"
"""
CHECK = re.compile(r'\n  call void @"rattle-llvm-checks::\w+"\(i8 %\w+\)')
FILLED = re.compile(
    r"(\n  (%\w+) = alloca [^\n]*)\n  call void @llvm\.memset\.p0\.i64\(ptr \2, i8 -86, i64 \d+, i1 false\)"
)
TRAP = re.compile(r"\n *call void @llvm\.trap\(\).*")
ATTRIBUTES = {
    " sanitize_address": "",
    '"frame-pointer"="all"': '"frame-pointer"="none"',
    '"target-cpu"="x86-64"': '"target-cpu"="x86-64-v2"',
}
FUNCTION = re.compile(r"^(?=define )", re.MULTILINE)
NAME = re.compile(r'@(?:"[^"]*"|[\w.$-]+)')
TARGET = "x86_64-unknown-linux-gnu"
FLAGS = f"--target={TARGET} -march=x86-64-v2 --no-default-config -ffunction-sections -fdata-sections -fPIE -O2".split()
ALLOCATOR = {
    "MIMALLOC_ALLOW_LARGE_OS_PAGES": "1",
    "MIMALLOC_PURGE_DELAY": "-1",
}  # of the front end: fewer calls of the system
PAUSE = 10  # seconds between two lines of progress
Tell = Callable[[str], None]


def without_checks(text: str) -> str:
    """The program without its checks and the watch over memory, in which no end by a trap is come to, and no room is filled
    before its first use."""
    text = TRAP.sub("", FILLED.sub(r"\1", CHECK.sub("", text)))
    for watched, plain in ATTRIBUTES.items():
        text = text.replace(watched, plain)
    return text


def only_reached(text: str) -> str:
    """The program without the functions that nothing reaches, three of five, which would be looked at before they are dropped."""
    head, *functions = FUNCTION.split(text)
    rest, bodies = [head], {}
    for function in functions:
        body, _, behind = function.partition("\n}\n")
        bodies[NAME.search(body).group()] = body  # type: ignore[union-attr]
        rest.append(behind)
    reached, waiting = set(), ["@main", *NAME.findall("".join(rest))]
    while waiting:
        name = waiting.pop()
        if name in bodies and name not in reached:
            reached.add(name)
            waiting += NAME.findall(bodies[name])
    return "".join(rest + [f"{body}\n}}\n" for name, body in bodies.items() if name in reached])


def kit_here() -> Path:
    """The folder of the kit whose rt is on the PATH."""
    return Path(os.path.realpath(shutil.which("rt") or "rt")).parent.parent


def put(path: Path, text: str) -> None:
    path.write_text(text, encoding="utf-8")
    path.chmod(0o755)


def link_all(folder: Path, own: Path, but: Callable[[str], bool]) -> None:
    """Links to what stands in a folder, but for what gets another form."""
    own.mkdir(parents=True, exist_ok=True)
    for path in folder.iterdir():
        if not but(path.name):
            (own / path.name).symlink_to(path)


def kit_with(kit: Path, work: Path) -> Path:
    """A kit that is this machine's, but for its clang and the check beside a run."""
    own, tools = work / "kit", kit / "toolchain" / "bin"
    link_all(kit, own, lambda name: name in ("bin", "toolchain"))
    link_all(kit / "bin", own / "bin", lambda name: name == "rattle" or name.endswith(".py") or name.startswith("rt"))
    for path in (kit / "bin").glob("rt*"):  # a script looks for its kit above itself
        shutil.copy(path, own / "bin")
    put(own / "bin" / "rattle", RATTLE.format(rattle=kit / "bin" / "rattle"))
    link_all(kit / "toolchain", own / "toolchain", lambda name: name == "bin")
    link_all(tools, own / "toolchain" / "bin", lambda name: (tools / name).is_symlink() or name == "clang")
    put(own / "toolchain" / "bin" / "clang", CLANG.format(clang=tools / "clang", tools=tools, work=work))
    for path in tools.iterdir():
        if path.is_symlink():
            (own / "toolchain" / "bin" / path.name).symlink_to("clang")
    return own


class Steps:
    """The parts of the work: each is a process that is followed to its end, with a line of progress now and then."""

    def __init__(self, said: IO[bytes], tell: Tell) -> None:
        self.said, self.tell = said, tell

    def run(self, what: str, words: Sequence[Union[str, Path]], **how: Any) -> int:
        self.tell(what)
        streams = {"stdin": subprocess.DEVNULL, "stdout": self.said, "stderr": self.said}
        with begun([os.fspath(word) for word in words], **streams, **how) as job:
            while True:
                try:
                    return job.wait(PAUSE)
                except subprocess.TimeoutExpired:
                    self.tell(what)


def compile_by(kit: Path, folder: Path, program: Path, work: Path, said: IO[bytes], tell: Tell) -> bool:
    """Whether the program of a crate's folder came about."""
    steps, own, module, made = Steps(said, tell), kit_with(kit, work), work / "module.ll", work / "module.o"
    try_it = [own / "bin" / "rt", "try", "--steps", "1", "--seconds", "1"]
    lean = {**os.environ, **ALLOCATOR}
    steps.run("step 1 of 2, the sources are compiled", try_it, cwd=folder, env=lean)  # its own clang's refusal ends it
    if not module.exists():
        return False
    module.write_text(only_reached(without_checks(module.read_text(encoding="utf-8"))), encoding="utf-8")
    clang = [kit / "toolchain" / "bin" / "clang", *FLAGS, "-c", "-x", "ir", module, "-o", made]
    link = [kit / "bin" / "rattle-link", "--target", TARGET, "--toolchain", kit / "toolchain", "-o", program, made]
    libraries = [kit / "c" / "libos_c.a", kit / "c" / "liblibc_c.a"]
    return (
        steps.run("step 2 of 2, the program is optimized", clang) == 0
        and steps.run("the program is linked", [*link, *libraries]) == 0
    )
