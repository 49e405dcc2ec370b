#!/usr/bin/env python3
# SPDX-License-Identifier: ISC
"""That instructions.py takes a module as the kit writes it, and refuses each other one, tells which
function is at fault, and then writes nothing:

    instructions_test.py [MODULE]

tries a small module of its own for each processor, and with MODULE also that, of x86-64 or for
JavaScript: the `module.ll` that kit.sh keeps. The last line is 'N passed, M failed'.
"""

import argparse
import re
import subprocess
import sys
import tempfile
from pathlib import Path

PROGRAM = Path(__file__).parent / "instructions.py"
PREFIX = {"x86_64": "ring_core::digest::instructions::x86::",
          "aarch64": "ring_core::digest::instructions::arm::",
          "wasm64": "ring_core::digest::kernel::",
          "x86_64-v3": "ring_core::digest::form::"}
QUESTION = {"x86_64": "are_there", "aarch64": "are_there", "wasm64": "is_window_chosen",
            "x86_64-v3": "has_rorx_and_andn"}
BYTE = "yz_instructions"
# The functions of a processor, by how many arguments they have. A word is the second of three, or
# the only one.
FUNCTIONS = {
    "x86_64": {"sha1msg1": 2, "sha1msg2": 2, "sha1nexte": 2, "sha1rnds4::<=0>": 2,
               "sha1rnds4::<=1>": 2, "sha1rnds4::<=2>": 2, "sha1rnds4::<=3>": 2,
               "sha256msg1": 2, "sha256msg2": 2, "sha256rnds2": 3},
    "aarch64": {"sha1c": 3, "sha1h": 1, "sha1m": 3, "sha1p": 3, "sha1su0": 3, "sha1su1": 2,
                "sha256h": 3, "sha256h2": 3, "sha256su0": 2, "sha256su1": 3},
    "wasm64": {},
    "x86_64-v3": {},
}
WITH_WORD = {"sha1c", "sha1m", "sha1p"}
# What LLVM calls the instructions: each function has the name of its own.
INSTRUCTIONS = {"x86_64": "llvm.x86", "aarch64": "llvm.aarch64.crypto"}
# How the questions are answered.
ANSWERS = {
    "are_there": ["  %byte = load atomic i8, ptr @yz_instructions monotonic, align 1",
                  "  %new = icmp ne i8 %byte, 0", "  ret i1 %new"],
    "is_window_chosen": ["  ret i1 true"],
    "has_rorx_and_andn": ["  ret i1 true"],
}
ATTRIBUTES = 'noinline nounwind "no-builtin-bcmp" "target-cpu"="x86-64-v2"'
# What is changed in a module, by a pattern in which {p} is the prefix and {q} the question, and
# what is then told of it: in each module, and in one for x86-64 alone, where a whole function is
# ONE, one call CALL.
ONE = r'(define internal void @"{p}sha256msg1"[\s\S]*?\n}}\n)'
CALL = r'  call void @"{p}sha256msg1"\((.*)\)\n'
CASES = [
    ("the question is gone", r'define [^\n]*@"{p}{q}"[\s\S]*?\n}}\n', "", "{q}: missing"),
    ("an answer by a number", r'noundef zeroext i1 (@"{p}{q}")', r"noundef i32 \1",
     "{q}: another type"),
    ("a question that nobody asks", r'  %r\d+ = call .*@"{p}{q}"\(\).*\n', "",
     "{q}: never called"),
    ("inlined where LLVM likes", r"(attributes #\d+ = {{ )noinline (nounwind)", r"\1\2",
     "not marked to be never inlined"),
    ("always inlined", r"(attributes #\d+ = {{ )noinline (nounwind)", r"\1alwaysinline \2",
     "not marked to be never inlined"),
    ("marked to read no memory", r"(attributes #\d+ = {{ noinline nounwind)", r"\1 memory(none)",
     "not marked to be never inlined, and so alone"),
    ("no module", r"[\s\S]+", "", "no module for"),
]
X86_CASES = [
    ("another processor's", 'triple = "x86_64-', 'triple = "riscv64-', "no module for x86_64"),
    ("a name is another", r'(@"{p}sha256msg)1"', r'\g<1>9"', "sha256msg1: missing"),
    ("a function is gone", ONE, "", "sha256msg1: missing"),
    ("a function is only declared", ONE, r'declare void @"{p}sha256msg1"(ptr, ptr, ptr)\n',
     "sha256msg1: missing"),
    ("one more argument", r'(define .*@"{p}sha256msg1"\(.*%a2)\)', r"\1, ptr noundef %a3)",
     "sha256msg1: another type"),
    ("one argument less", r'(define .*@"{p}sha256msg1"\(.*), ptr noundef %a2\)', r"\1)",
     "sha256msg1: another type"),
    ("an argument that is no address", r'(define .*@"{p}sha256msg1"\(.*)ptr noundef %a2\)',
     r"\1i32 noundef %a2)", "sha256msg1: another type"),
    ("a result that is no address", r'define internal void (@"{p}sha256msg1")',
     r"define internal noundef i32 \1", "sha256msg1: another type"),
    ("an argument that nobody else has", r'(define .*@"{p}sha256msg1"\(ptr) noundef',
     r"\1 noalias noundef", "sha256msg1: another type"),
    ("seen from outside", r'define internal (void @"{p}sha256msg1")', r"define \1",
     "sha256msg1: another type"),
    ("an instruction that the table has not", ONE,
     lambda it: it[0] + it[0].replace("msg1", "msg3"), "sha256msg3: never inlined"),
    ("defined twice", ONE, r"\1\1", "sha256msg1: defined twice"),
    ("an address as an argument", CALL, r'  call void @take(ptr @"{p}sha256msg1")\n',
     "sha256msg1: used but by a call"),
    ("an address in a constant", r"(target triple.*\n)",
     r'\1@kept = internal constant ptr @"{p}sha256msg1"\n', "sha256msg1: used but by a call"),
    ("another name for it", r"(target triple.*\n)",
     r'\1@kept = internal alias void (ptr, ptr, ptr), ptr @"{p}sha256msg1"\n',
     "sha256msg1: used but by a call"),
    ("called by other types", CALL, r'  call void @"{p}sha256msg1"(\1, i32 0)\n',
     "sha256msg1: used but by a call"),
    ("called as the last thing", CALL, r'  musttail call void @"{p}sha256msg1"(\1)\n',
     "sha256msg1: used but by a call"),
    ("never called", CALL, "", "sha256msg1: never called"),
    ("another group of attributes", r'(define .*@"{p}sha256msg1"\(.*#)\d+ ([\s\S]*)',
     lambda it: f'{it[1]}99 {it[2]}attributes #99 = {{ {ATTRIBUTES} }}\n',
     "sha256msg1: other attributes"),
    ("the byte's name taken", r"(target triple.*\n)", r"\1@yz_instructions = global i8 0\n",
     "such a name already"),
    ("an instruction's name taken", r"(target triple.*\n)",
     r"\1declare i32 @llvm.x86.sha1msg1(i32)\n", "such a name already"),
]


def function(path, count, has_word):
    """A function as the kit lowers it, and the line that calls it."""
    if count == 1:
        kinds, result, end = ["i32"], "noundef i32", "  ret i32 0"
    else:
        kinds = ["ptr", "ptr", "i32" if has_word else "ptr", "ptr"][:count + 1]
        result, end = "void", "  ret void"
    taken = ", ".join(f"{it} noundef %a{i}" for i, it in enumerate(kinds))
    given = ", ".join(f"{it} {'0' if it == 'i32' else '%r1'}" for it in kinds)
    call = f'  %r2 = call i32 @"{path}"({given})' if count == 1 else \
        f'  call void @"{path}"({given})'
    return [f'define internal {result} @"{path}"({taken}) #1 {{', "start:", end, "}"], call


def wanted_body(processor, name):
    """The lines by which a function gives what its instruction does: the vectors that it is handed,
    in their order, a word as it is, and the number in the function's name."""
    if name in ANSWERS:
        return ANSWERS[name]
    count, vector = FUNCTIONS[processor][name], "<4 x i32>"
    instruction, _, number = name.partition("::<=")
    called = f"@{INSTRUCTIONS[processor]}.{instruction}"
    if count == 1:
        return [f"  %new = call i32 {called}(i32 %a0)", "  ret i32 %new"]
    words = {2} if name in WITH_WORD else set()
    vectors = [i for i in range(1, count + 1) if i not in words]
    lines = [f"  %v{i} = load {vector}, ptr %a{i}, align 4" for i in vectors]
    given = [f"i32 %a{i}" if i in words else f"{vector} %v{i}" for i in range(1, count + 1)]
    given += [f"i8 {number[:-1]}"] if number else []
    lines.append(f"  %new = call {vector} {called}({', '.join(given)})")
    return [*lines, f"  store {vector} %new, ptr %a0, align 4", "  ret void"]


def wanted_declarations(processor, names):
    """The lines by which LLVM is told of the instructions of some functions."""
    made = set()
    for name in names:
        instruction, _, number = name.partition("::<=")
        count, vector = FUNCTIONS[processor][name], "<4 x i32>"
        types = [vector, "i32" if name in WITH_WORD else vector, vector][:count]
        types += ["i8 immarg"] if number else []
        of = "i32" if count == 1 else vector
        types = ["i32"] if count == 1 else types
        made.add(f"declare {of} @{INSTRUCTIONS[processor]}.{instruction}({', '.join(types)})")
    return sorted(made)


def module(processor):
    """A small module for a processor, in which another function calls all of the table."""
    family, _, level = processor.partition("-")
    lines, calls = [f'target triple = "{family}-unknown-linux-gnu"'], []
    prefix = PREFIX[processor]
    for name, count in FUNCTIONS[processor].items():
        made, call = function(prefix + name, count, name in WITH_WORD)
        lines += made
        calls.append(call)
    question = f'@"{prefix}{QUESTION[processor]}"()'
    lines += [f"define internal noundef zeroext i1 {question} #1 {{", "  ret i1 false", "}"]
    lines += ["define void @run(ptr noundef %a0) #0 {", "  %r1 = alloca [16 x i8], align 4", *calls,
              f"  %r3 = call i1 {question}, !range !2", "  ret void", "}"]
    lines += ['attributes #0 = { nounwind "target-cpu"="x86-64-v2" }',
              f"attributes #1 = {{ {ATTRIBUTES} }}", "!2 = !{i8 0, i8 2}"]
    text = "".join(f"{it}\n" for it in lines)
    return text.replace("x86-64-v2", f"x86-64-{level}") if level else text


def run(processor, text, *options):
    """What the program says of a module, and what it wrote, or None."""
    with tempfile.TemporaryDirectory() as room:
        given, changed = Path(room) / "module.ll", Path(room) / "changed.ll"
        given.write_text(text, encoding="utf-8")
        command = [sys.executable, "-B", PROGRAM, *options, processor, given, changed]
        ran = subprocess.run(command, capture_output=True, text=True, check=False)
        wrote = changed.read_text(encoding="utf-8") if changed.exists() else None
    return ran.stderr if ran.returncode else None, wrote


def faults_of_taken(processor, text, *options):
    """Whether a module is taken, each function of the table has another body, and all other lines
    stay."""
    said, wrote = run(processor, text, *options)
    if said is not None:
        return said
    names = [QUESTION[processor], *({} if options else FUNCTIONS[processor])]
    rest = text
    for name in names:
        body = rf'define [^\n]*@"{re.escape(PREFIX[processor] + name)}"\([\s\S]*?\n}}\n'
        before, after = re.search(body, rest), re.search(body, wrote)
        if before is None or after is None or before[0] == after[0] or after[0].count("\n") > 8:
            return f"the body of {name} is not exchanged"
        lines = [it for it in after[0].split("\n")[1:-2] if it != "start:"]
        if lines != wanted_body(processor, name):
            return f"the body of {name} is another one: {' '.join(lines)}"
        rest = rest.replace(before[0], after[0])
    declares = {it for it in wrote.split("\n") if it.startswith("declare ")}
    declared = sorted(declares.difference(text.split("\n")))
    if declared != wanted_declarations(processor, names[1:]):
        return f"other declarations: {' '.join(declared)}"
    if (BYTE in wrote) != (QUESTION[processor] == "are_there"):
        return f"{BYTE} is for the processors' instructions, and for these alone"
    return None if wrote.startswith(rest) else "another line is changed"


def faults_of_refused(processor, text, told):
    """Whether a module is refused by the program's own words, and nothing written."""
    said, wrote = run(processor, text)
    if said is None:
        return "it is taken"
    if wrote is not None:
        return "something is written"
    is_told = said.startswith("instructions.py: refused: ") and told in said
    return None if is_told else f"it says: {said}"


def cases(processor, text):
    """Each case over a module: its name, and its fault or None."""
    yield "as the kit writes it", faults_of_taken(processor, text)
    prefix, question = PREFIX[processor], QUESTION[processor]
    yield "the question alone", faults_of_taken(processor, text, "--only", question)
    for name, old, new, told in CASES + X86_CASES * (processor == "x86_64"):
        old = old.format(p=re.escape(prefix), q=question) if "{" in old else old
        made = new.replace("{p}", prefix) if isinstance(new, str) else new
        changed, count = re.subn(old, made, text)
        fault = faults_of_refused(processor, changed, told.replace("{q}", question))
        yield name, fault if count else "nothing is changed"
    for name in FUNCTIONS[processor]:
        changed = text.replace(f'@"{prefix}{name}"', f'@"{prefix}{name}_"')
        fault = faults_of_refused(processor, changed, f"{prefix}{name}: missing")
        yield f"{name} by another name", fault


def main():
    parser = argparse.ArgumentParser(usage=__doc__.split("\n\n")[1].strip())
    parser.add_argument("module", nargs="?")
    given = parser.parse_args()
    tried = [("for ARM", faults_of_taken("aarch64", module("aarch64"))),
             ("for ARM as one for x86-64",
              faults_of_refused("x86_64", module("aarch64"), "no module for x86_64"))]
    for processor in ("x86_64", "wasm64", "x86_64-v3"):
        tried += cases(processor, module(processor))
    tried.append(("for x86-64-v2 as one for v3", faults_of_refused(
        "x86_64-v3", module("x86_64-v3").replace("x86-64-v3", "x86-64-v2", 1),
        "a function for another processor than x86_64-v3")))
    if given.module:
        text = Path(given.module).read_text(encoding="utf-8")
        tried += cases(re.search(r'^target triple = "(\w+)-', text, re.M)[1], text)
    for name, fault in tried:
        if fault:
            print(f"FAILED: {name}: {fault.strip()[:300]}")
    failed = sum(fault is not None for _, fault in tried)
    print(f"{len(tried) - failed} passed, {failed} failed")
    return failed != 0


if __name__ == "__main__":
    sys.exit(main())
