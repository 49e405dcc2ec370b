# SPDX-License-Identifier: ISC
"""How a check names the functions of a source file."""

import pathlib
import re

import rattle_items
import rattle_text


def words_of(head):
    """The type and then the trait of an `impl` or `trait` block, as a check spells them in the
    block's name: without marks and type parameters, and the trait without its path."""
    head = re.sub(r"\bwhere\b.*", "", re.sub(r"^(?:pub )?(?:impl|trait)\s*", "", head), flags=re.S)
    behind = rattle_items.behind_generics(head) if head.startswith("<") else head
    own = rattle_items.split_commas(head[1 : len(head) - len(behind) - 1]) if behind != head else []
    parameters = {re.match(r"\s*(?:const )?('?\w+)", it).group(1) for it in own}
    trait, _, subject = behind.rpartition(" for ")
    words = re.findall(r"(?<!')\b\w+", subject + " " + re.sub(r"^(?:\w+::)+", "", trait))
    return "".join(it for it in words if it not in parameters).lower()


def methods_of(module, head, name, names):
    """Those of `names` that may be the method of this name in the block with this head. A method
    has its type's module, which may be another than that of its file."""
    same_name = (it.split("::") for it in names if it.endswith(f"::{name}"))
    methods = [it for it in same_name if len(it) > 2]
    words = words_of(head)
    found = [it for it in methods if re.sub(r"\W", "", it[-2]).lower() == words]
    if len(found) != 1:
        found = [it for it in found or methods if "::".join(it[:-2]) == module]
    return ["::".join(it) for it in found]


def module_of(crate, file):
    """The module of a source file, given from its crate's folder."""
    steps = pathlib.Path(file).with_suffix("").parts[1:]
    return "::".join([crate, *(it for it in steps if it not in ("lib", "main"))])


def name_of(module, text, function, names):
    """The name of a function of a file in a check, one of `names`, but for its crate; None where it
    can't be told."""
    heads = (text[start : text.index("{", start)] for _, start, end in rattle_text.blocks(text)
             if start < function.start < end)
    if (head := next(heads, None)) is None:
        found = [it for it in names if it == f"{module}::{function.name}"]
    else:
        found = methods_of(module, head, function.name, names)
    return found[0].partition("::")[2] if len(found) == 1 else None
