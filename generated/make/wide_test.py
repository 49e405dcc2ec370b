#!/usr/bin/env python3
# SPDX-License-Identifier: ISC
"""That wide.py changes a module as it says, and no other line, and refuses each other module.

The last line is 'N passed, M failed'.
"""

import re
import sys

sys.dont_write_bytecode = True
import instructions
import wide

# Each function of a small module: its first line, and the others.
ASKED = 'define internal noundef zeroext i1 @"ring_sums::wide::is_v3_there"() #2 {'
FUNCTIONS = {
    "asker": ('define internal i32 @"ring_sums::wide::update_each"(ptr noundef %a0) #0 {', """\
  %r1 = call i1 @"ring_sums::wide::is_v3_there"()
  %r2 = call i32 @"ring::digest::updates::update_each_in::<=256>"(ptr %a0)
  %r3 = call i32 @"ring::digest::updates::update_each_in::<=128>"(ptr %a0)
  ret i32 %r2"""),
    "question": (ASKED, "  ret i1 false"),
    "narrow": ('define internal i32 @"ring::digest::updates::update_each_in::<=128>"'
               '(ptr noundef %a0) #0 {', """\
  %r1 = call i32 @"ring_core::shared::<=4>"(ptr %a0)
  ret i32 %r1"""),
    "wide": ('define internal i32 @"ring::digest::updates::update_each_in::<=256>"'
             '(ptr noundef %a0) #0 {', """\
  %r1 = call i32 @"ring_core::shared::<=4>"(ptr %a0)
  %r2 = call i32 @"ring_core::shared::<=8>"(ptr %a0)
  ret i32 %r2"""),
    "shared": ('define internal i32 @"ring_core::shared::<=4>"(ptr noundef %a0) #1 {',
               "  ret i32 4"),
    "deeper": ('define internal i32 @"ring_core::shared::<=8>"(ptr noundef %a0) #0 {', """\
  %r1 = call i32 @"ring_core::shared::<=8>"(ptr %a0)
  %r2 = call i32 @"ring_core::shared::<=4>"(ptr %a0)
  call void @"outside::of"()
  ret i32 %r1"""),
    "other": ("define i32 @main() #3 {", """\
  %r1 = call i32 @"ring_sums::wide::update_each"(ptr null)
  ret i32 %r1"""),
}
HEAD = 'target triple = "x86_64-unknown-linux-gnu"\ndeclare void @"outside::of"()\n'
TAIL = """\
attributes #0 = { nounwind "target-cpu"="x86-64-v2" }
attributes #1 = { alwaysinline nounwind "target-cpu"="x86-64-v2" }
attributes #2 = { noinline nounwind "target-cpu"="x86-64-v2" }
attributes #3 = { nounwind "target-cpu"="x86-64" }
"""
# What stands behind the module once it is changed, in any order of its paragraphs.
ANSWER = """\
define internal noundef zeroext i1 @"ring_sums::wide::is_v3_there"() #4 {
  %byte = load atomic i8, ptr @yz_known monotonic, align 1
  %bit = and i8 %byte, 1
  %new = icmp ne i8 %bit, 0
  ret i1 %new
}
"""
ADDED = """\
@yz_known = external hidden global i8

attributes #4 = { alwaysinline nounwind "target-cpu"="x86-64-v2" }

define internal i32 @"ring::digest::updates::update_each_in::<=256>::v3"(ptr noundef %a0) #5 {
start:
  %r1 = call i32 @"ring_core::shared::<=4>::v3"(ptr %a0)
  %r2 = call i32 @"ring_core::shared::<=8>::v3"(ptr %a0)
  ret i32 %r2
}

define internal i32 @"ring_core::shared::<=4>::v3"(ptr noundef %a0) #6 {
start:
  ret i32 4
}

define internal i32 @"ring_core::shared::<=8>::v3"(ptr noundef %a0) #5 {
start:
  %r1 = call i32 @"ring_core::shared::<=8>::v3"(ptr %a0)
  %r2 = call i32 @"ring_core::shared::<=4>::v3"(ptr %a0)
  call void @"outside::of"()
  ret i32 %r1
}

attributes #5 = { nounwind "target-cpu"="x86-64-v3" }
attributes #6 = { alwaysinline nounwind "target-cpu"="x86-64-v3" }
"""
# What is changed in the module, by a pattern, and what is then told of it.
WIDE, NARROW = r'@"ring::digest::updates::update_each_in::<=256>"', "update_each_in::<=128>"
CASES = [
    ("the question is gone", re.escape(ASKED) + r"[\s\S]*?\n}\n", "", "is_v3_there: missing"),
    ("the question may be inlined", "#2 = { noinline ", "#2 = { ", "not marked to be never"),
    ("nobody asks", r"  %r1 = call i1 .*\n", "", "is_v3_there: used but once"),
    ("it is asked twice", r"(  %r1 = call i1 .*\n)", r"\1\1", "is_v3_there: used but once"),
    ("another asks", r"(i32 @main.*\nstart:\n)",
     r'\1  %r0 = call i1 @"ring_sums::wide::is_v3_there"()\n', "is_v3_there: used but once"),
    ("the asker is gone", "::update_each\"", '::update_other\"', "update_each: missing"),
    ("the wide call is gone", WIDE, f'@"ring::{NARROW}"', "<=256>: missing"),
    ("another calls it", r"(i32 @main.*\nstart:\n)", rf"\1  %r0 = call i32 {WIDE}(ptr null)\n",
     "<=256>: used but once"),
    ("it reaches its caller", r"  ret i32 4", '  call void @"ring_sums::wide::update_each"()',
     "reaches its own caller"),
    ("a function is seen from outside", r'internal (i32 @"ring_core::shared::<=8>")', r"\1",
     "<=8>: no function of the module's own"),
    ("a function is for another processor", '(#1 = .*"target-cpu"="x86-64)-v2', r"\1-v4",
     "<=4>: no function of the module's own for x86-64-v2"),
    ("the byte's name is taken", r"(target triple.*\n)", r"\1@yz_known = global i8 0\n",
     "yz_known already"),
]


def module():
    """A small module, as the kit writes it."""
    whole = "".join(f"{first}\nstart:\n{others}\n}}\n" for first, others in FUNCTIONS.values())
    return f"{HEAD}{whole}{TAIL}"


def changed(text):
    """What a module becomes, or why it is refused."""
    try:
        lines = list(wide.changed(instructions.Module(text.split("\n")[:-1])))
    except SystemExit as refused:
        return f"refused: {refused}"
    return "".join(f"{it}\n" for it in lines)


def paragraphs(text):
    """The functions and the other lines of what is added, in an order of their own."""
    return sorted(filter(None, re.split(r"\n\n+|(?<=})\n|\n(?=attributes|@)", text.strip("\n"))))


def fault_of_taken():
    """What is wrong with the changed module, or None."""
    asked = FUNCTIONS["question"]
    wanted = module().replace(f"{asked[0]}\nstart:\n{asked[1]}\n}}\n", ANSWER)
    wanted = re.sub(rf"(call i32 {WIDE[:-1]})\"", r'\1::v3"', wanted)
    found = changed(module())
    if not found.startswith(wanted):
        return f"another line is changed:\n{found}"
    rest = found[len(wanted):]
    return None if paragraphs(rest) == paragraphs(ADDED) else f"another addition:\n{rest}"


def fault_of_refused(old, new, told):
    """What is wrong with how a changed module is refused, or None."""
    text, count = re.subn(old, new, module())
    if not count:
        return "nothing is changed"
    said = changed(text)
    return None if "refused: " in said and told in said else f"it says:\n{said}"


def main():
    tried = [("as the kit writes it", fault_of_taken())]
    tried += [(name, fault_of_refused(*case)) for name, *case in CASES]
    for name, fault in tried:
        if fault:
            print(f"FAILED: {name}: {fault.strip()[:2000]}")
    failed = sum(fault is not None for _, fault in tried)
    print(f"{len(tried) - failed} passed, {failed} failed")
    return failed != 0


if __name__ == "__main__":
    sys.exit(main())
