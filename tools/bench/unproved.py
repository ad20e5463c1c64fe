#!/usr/bin/env python3
"""Builds the program without proving it, to measure a form before it is proved.

    tools/bench/unproved.py OUT [CRATE]             the program of the crate (mcd by default), as the executable OUT
    tools/bench/unproved.py --hints OUT [CRATE]     the same, inlined as the sources ask

`rt try` compiles a program before any proof, with checks of what a proof would show. Its module is taken from it here, those
checks are taken out of it, and it is compiled as the program is. What the compiler learns from the prover is missing, so it takes about
a fifth more instructions than the proved program: compare such builds with one another alone, and serve nobody by one. It takes
about three minutes.

The module of a try has none of the hints `#[inline(..)]` and `#[cold]`, and fills each local. With --hints they are added and the
fills left out. Then a command takes up to 6 % more instructions than in the proved program, and a profile shows what is inlined.
"""
import argparse
import pathlib
import re
import shutil
import subprocess
import sys
import tempfile

TOP = pathlib.Path(__file__).resolve().parent.parent.parent
KIT = pathlib.Path(shutil.which("rt")).resolve().parent.parent
TARGET = ["--target=x86_64-unknown-linux-gnu", "--no-default-config", "-no-canonical-prefixes", "-x", "ir"]
# As the kit compiles a program, but for what `rt try` adds.
CODE = ["-march=x86-64", "-ffunction-sections", "-fdata-sections", "-fPIE", "-O2", "-c", "-mllvm", "-no-trap-after-noreturn",
        "-mllvm", "-trap-unreachable", "-mllvm", "-disable-machine-licm", "-mllvm", "-disable-postra-machine-licm"]
LINK = ["-m", "elf_x86_64", "-pie", "--dynamic-linker", "/lib64/ld-linux-x86-64.so.2", "--as-needed", "-z", "relro", "-z", "now",
        "-z", "noexecstack", "--eh-frame-hdr", "--gc-sections", "--no-dependent-libraries"]
PARTS = ["Scrt1.o", "crti.o", "crtbeginS.o", "input-0", "input-1", "input-2", "input-3", "libm.so.6", "libc.so.6",
         "libc_nonshared.a", "ld-linux-x86-64.so.2", "libgcc.a", "libgcc_s.so.1", "crtendS.o", "crtn.o"]
# What LLVM calls the hints of the sources.
HINTS = {"inline(always)": "alwaysinline", "inline(never)": "noinline", "cold": "cold"}
# A compiler that keeps what it was given, each call in a folder of its own.
KEEPER = """#!/bin/sh
kept=$(mktemp -d {kept}/XXXXXX)
for word in "$@"; do [ -f "$word" ] && cp "$word" "$kept/"; done
exec {kit}/toolchain/bin/$(basename "$0") "$@"
"""


def kept_by_a_try(work, crate):
    """Tries the program with a compiler that keeps what it is given: the module, and the folder of what is linked."""
    tools, kept = work / "toolchain/bin", work / "kept"
    tools.mkdir(parents=True)
    kept.mkdir()
    (work / "toolchain/lib").symlink_to(KIT / "toolchain/lib")
    (tools / "rattle-x64").symlink_to(KIT / "toolchain/bin/rattle-x64")
    for name in ("clang", "ld.lld", "llvm-ar"):
        (tools / name).write_text(KEEPER.format(kept=kept, kit=KIT))
        (tools / name).chmod(0o755)
    shutil.copy(KIT / "bin/rt", work / "rt")
    code = (KIT / "bin/rtlib.py").read_text()
    code = code.replace('f"{KIT}/toolchain"]', f'"{work}/toolchain"]')
    (work / "rtlib.py").write_text(re.sub(r"^KIT = .*$", f'KIT = "{KIT}"', code, flags=re.M))
    said = subprocess.run([sys.executable, work / "rt", "try", "--", "--version"], cwd=TOP / "crates" / crate,
                          stdin=subprocess.DEVNULL, capture_output=True, text=True)
    modules = sorted(kept.glob("*/module.bc"), key=lambda it: it.stat().st_size)
    linked = list(kept.glob("*/input-0"))
    if not modules or not linked:
        sys.exit(f"FAILED: rt try built nothing\n{said.stdout[-2000:]}{said.stderr[-2000:]}")
    return modules[-1], linked[0].parent


def without_checks(text):
    """The module without the checks, and without what a tool for addresses needs."""
    text = text.replace("  call void @llvm.trap()\n", "")
    text = re.sub(r'(define internal void @"rattle-llvm-checks::\w+"\(i8 %a0\)[^{]*\{\n).*?\n\}\n', r"\1  ret void\n}\n", text, flags=re.S)
    text = text.replace("sanitize_address ", "").replace('"frame-pointer"="all" ', "")
    return text.replace("= { }", "= { nounwind }")


def hinted():
    """The functions with a hint in the sources, by module and name, and LLVM's word for it."""
    found = {}
    for file in TOP.glob("crates/*/src/**/*.rt"):
        crate, _src, *names = file.relative_to(TOP / "crates").with_suffix("").parts
        module, hint = "::".join([crate, *(name for name in names if name not in ("lib", "main"))]), None
        for line in file.read_text().splitlines():
            if asked := re.match(r"\s*#\[(inline\((?:always|never)\)|cold)\]", line):
                hint = HINTS[asked[1]]
            elif name := re.match(r"\s*(?:pub(?:\([a-z]+\))? )?(?:unsafe )?fn (\w+)", line):
                if hint:
                    found[module, name[1]] = hint
                hint = None
    return found


def with_hints(text):
    """The module with the hints of the sources, and without the fills of locals."""
    hints, lines = hinted(), []
    for line in text.splitlines(keepends=True):
        if "i8 -86, i64" in line and "memset" in line:
            continue
        if name := re.match(r'define [^@]*@"([^"]+)"', line):
            # A method's name has its type between the module and itself.
            *module, function = re.sub(r"::<[#=][^>]*>", "", name[1]).split("::")
            hint = hints.get(("::".join(module), function)) or hints.get(("::".join(module[:-1]), function))
            if hint:
                line = line.replace(") #0 {", f") {hint} #0 {{")
        lines.append(line)
    return "".join(lines)


def main():
    parser = argparse.ArgumentParser(description=__doc__, formatter_class=argparse.RawDescriptionHelpFormatter)
    parser.add_argument("--hints", action="store_true")
    parser.add_argument("out", type=pathlib.Path)
    parser.add_argument("crate", nargs="?", default="mcd")
    given = parser.parse_args()
    out, crate = given.out.resolve(), given.crate
    clang = KIT / "toolchain/bin/clang"
    with tempfile.TemporaryDirectory(prefix="unproved-") as folder:
        module, linked = kept_by_a_try(pathlib.Path(folder), crate)
        text = module.with_suffix(".ll")
        subprocess.run([clang, *TARGET, module, "-S", "-emit-llvm", "-Xclang", "-disable-llvm-passes", "-o", text], check=True)
        code = without_checks(text.read_text())
        text.write_text(with_hints(code) if given.hints else code)
        subprocess.run([clang, *TARGET, text, *CODE, f"--sysroot={KIT}/toolchain", "-o", linked / "input-0"], check=True)
        subprocess.run([KIT / "toolchain/bin/ld.lld", *LINK, "-o", out, *PARTS], cwd=linked, check=True)
    print(out)


if __name__ == "__main__":
    main()
