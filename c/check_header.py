#!/usr/bin/env python3
"""Compares include/kcore.h with crates/kc_c, from which the library is made: its functions with their types, its structs and its statuses.

usage: python3 c/check_header.py

Each `extern "C"` function of the crate is translated: a slice is a pointer and a length, and the allocator is no argument. The status is 1
where something differs, and each difference is a line.
"""

import re
import sys
from pathlib import Path

TOP = Path(__file__).resolve().parent.parent

#: What C calls a type of the crate.
IN_C = {
    "u32": "uint32_t",
    "u64": "uint64_t",
    "usize": "size_t",
    "Edge": "struct kcore_edge",
    "CallResult": "struct kcore_answer",
    "GivenUpdate": "struct kcore_update",
    "CoreChange": "struct kcore_change",
    "KeeperPlace": "struct kcore_keeper",
}

#: Where the crates have the structs that C sees.
STRUCTS = {
    "Edge": "kc_graph/src/bulk.rt",
    "CallResult": "kc_c/src/answer.rt",
    "GivenUpdate": "kc_c/src/updates.rt",
    "CoreChange": "kc_keeper/src/changes.rt",
}


def parameters_in_c(declared):
    """The types that a parameter of the crate has in C."""
    if declared == "Global":
        return []
    for begin, pointer in (("&mut [", "{} *"), ("&[", "const {} *"), ("*mut ", "{} *")):
        if declared.startswith(begin):
            of = pointer.format(IN_C[declared[len(begin) :].rstrip("]")])
            return [of] if begin == "*mut " else [of, "size_t"]
    return [IN_C[declared]]


def functions_of_crate():
    """Each exported function with the types of its result and its parameters, as C would have them."""
    found = {}
    for path in sorted((TOP / "crates/kc_c/src").glob("*.rt")):
        for name, given, result in re.findall(r'extern "C" fn (\w+)\(([^)]*)\)(?: -> (\w+))?', path.read_text("utf-8")):
            types = [part.split(":", 1)[1].strip() for part in given.split(",") if part.strip()]
            found[name] = (IN_C[result] if result else "void", [of for declared in types for of in parameters_in_c(declared)])
    return found


def functions_of_header(header):
    """Each declared function with the types of its result and its parameters."""
    found = {}
    for result, name, given in re.findall(r"([\w ]+?[ *]+)(kcore_\w+)\(([^)]*)\);", header):
        parts = [re.sub(r"\s*\b\w+$", "", part.strip()) for part in given.split(",") if part.strip() != "void"]
        types = [part if part.endswith("*") else part.strip() for part in parts]
        found[name] = (result.replace("KCORE_LOOK_AT_ANSWER", "").strip(), types)
    return found


def structs_of_header(header):
    """The fields of each struct that is declared with some: name and type."""
    bodies = re.findall(r"struct (kcore_\w+) \{([^}]*)\};", header)
    return {name: re.findall(r"(\w+) (\w+);", body) for name, body in bodies}


def structs_of_crates():
    """The same of the crates' structs, which have the layout of C."""
    found = {}
    for name, place in STRUCTS.items():
        text = (TOP / "crates" / place).read_text("utf-8")
        layout, body = re.search(rf"((?:#\[[^\n]*\]\n)*)pub struct {name} \{{([^}}]*)\}}", text).groups()
        fields = [(IN_C[of], field) for field, of in re.findall(r"pub (\w+): (\w+),", body)]
        found[IN_C[name].partition(" ")[2]] = fields if "#[repr(C)]" in layout else "not of the layout of C"
    return found


def statuses():
    """The numbers that the header gives statuses, and those that the crate answers."""
    header = {int(number) for number in re.findall(r"KCORE_\w+ = (\d+)", (TOP / "include/kcore.h").read_text("utf-8"))}
    sources = [path.read_text("utf-8") for path in (TOP / "crates/kc_c/src").glob("*.rt")]
    return header, {int(number) for text in sources for number in re.findall(r"=> \((\d+), \w+\)", text)}


def differences():
    header = re.sub(r"/\*.*?\*/", "", (TOP / "include/kcore.h").read_text("utf-8"), flags=re.DOTALL)
    here, there = functions_of_crate(), functions_of_header(header)
    for name in sorted(here.keys() | there.keys()):
        if here.get(name) != there.get(name):
            yield f"{name}: {here.get(name)} in the crate, {there.get(name)} in the header"
    here, there = structs_of_crates(), structs_of_header(header)
    for name in sorted(here.keys() | there.keys()):
        if here.get(name) != there.get(name):
            yield f"struct {name}: {here.get(name)} in the crate, {there.get(name)} in the header"
    declared, answered = statuses()
    if declared != answered:
        yield f"statuses {sorted(declared ^ answered)} stand in one of both alone"


if __name__ == "__main__":
    told = list(differences())
    print("\n".join(told) if told else f"header: {len(functions_of_crate())} functions and {len(STRUCTS)} structs are those of the crate")
    sys.exit(bool(told))
