#!/usr/bin/env python3
"""The entries as C, Rust and Python declare them are those of the sources.

A function of crates/*/src marked `#[unsafe(no_mangle)] pub extern "C"` is an entry. Its name, its parameters by name and type in their order, and
what it gives back are held against include/zorambi.h (the declaration, and the inline function for empty slices with what it hands on),
against bindings/rust/src/entries.rs and against bindings/python/zorambi/entries.py. No library is needed.

    tests/entries.py [ROOT]
"""
import ctypes
import re
import sys
import types
from pathlib import Path

ROOT = Path(sys.argv[1] if len(sys.argv) > 1 else Path(__file__).resolve().parent.parent).resolve()
C_NUMBERS = {"i32": "int32_t", "u8": "uint8_t", "usize": "size_t", "u64": "uint64_t"}
CTYPES = {"i32": ctypes.c_int32, "usize": ctypes.c_size_t, "u64": ctypes.c_uint64, None: None}
# What hands on a slice, an empty one too, by what C calls its pointer.
HANDED = {"const int32_t *": "zorambi_numbers_of", "const uint8_t *": "zorambi_text_of", "int32_t *": "zorambi_lent_numbers",
          "uint8_t *": "zorambi_lent_bytes"}
passed = failed = 0


def expect(what, found, wanted):
    global passed, failed
    if found == wanted:
        passed += 1
    else:
        failed += 1
        print(f"{what}:\n  has    {difference(found, wanted)}\n  source {difference(wanted, found)}")


def difference(one, other):
    """What one has from the first place on at which it differs, down to the innermost list, at most three items of it."""
    while isinstance(one, (list, tuple)) and isinstance(other, (list, tuple)):
        at = next((k for k, (a, b) in enumerate(zip(one, other)) if a != b), min(len(one), len(other)))
        if at < min(len(one), len(other)) and isinstance(one[at], (list, tuple)) and not isinstance(one[at][0], str):
            one, other = one[at], other[at]
        elif at < min(len(one), len(other)) and len(one) < 4 and not all(isinstance(each, str) for each in one):
            one, other = one[at], other[at]
        else:
            return f"at {at}: {list(one[at:at + 3])}"
    return one


def folded(text):
    return " ".join(text.split())


def parameters(text):
    """Names and types of `a: T, b: U`."""
    return [tuple(map(str.strip, each.split(":", 1))) for each in re.split(r",(?![^\[]*\])", folded(text)) if each.strip()]


def source_entries():
    """Name, parameters and what is given back, of each entry."""
    found = {}
    for file in sorted(ROOT.glob("crates/*/src/**/*.rt")):
        text = re.sub(r"^\s*//.*$", "", file.read_text(), flags=re.M)
        for name, given, back in re.findall(r'#\[unsafe\(no_mangle\)\]\s*pub extern "C" fn (\w+)\(([^)]*)\)(?:\s*->\s*(\w+))?', text):
            found[name] = (parameters(given), back or None)
    return found


def taken_apart(kind):
    """A type as (written, number, length): a slice has the length '', a single number None."""
    match = re.fullmatch(r"&(mut )?\[(\w+)(?:; (\d+))?\]", kind)
    if match:
        return bool(match[1]), match[2], match[3] or ""
    return False, kind, None


def in_c(given):
    """The parameters as the header declares them."""
    declared = []
    for name, kind in given:
        written, number, length = taken_apart(kind)
        number = ("" if written or length is None else "const ") + C_NUMBERS.get(number, number)
        if length is None:
            declared.append(f"{number} {name}")
        elif length:
            declared.append(f"{number} {name}[{length}]")
        else:
            declared += [f"{number} *{name}", f"size_t {name}_len"]
    return declared


def handed_on(given):
    """The arguments of the library's function in the inline one."""
    arguments = []
    for name, kind in given:
        written, number, length = taken_apart(kind)
        pointer = ("" if written else "const ") + C_NUMBERS.get(number, number) + " *"
        arguments += [f"{HANDED.get(pointer)}({name}, {name}_len)", f"{name}_len"] if length == "" else [name]
    return arguments


def in_header(name, given, back, header):
    back = C_NUMBERS.get(back, back) if back else "void"
    found = re.findall(rf"^(\w+) {name}\(([^)]*)\);", header, re.M)
    declared = [(kind, [each.strip() for each in folded(text).split(",")]) for kind, text in found]
    expect(f"include/zorambi.h: {name}", declared, [(back, in_c(given))])
    inline = name.replace("zorambi_", "zorambi_c_", 1)
    found = re.search(rf"^static inline (\w+) {inline}\(([^)]*)\) {{\n(.*?)^}}", header, re.M | re.S)
    wanted = (back, in_c(given), f"{'return ' if back != 'void' else ''}{name}({', '.join(handed_on(given))});")
    has = found and (found[1], [each.strip() for each in folded(found[2]).split(",")], folded(found[3]))
    expect(f"include/zorambi.h: {inline}", has, wanted)
    expect(f"include/zorambi.h: the name {name}", len(re.findall(rf"^#define {name} {inline}$", header, re.M)), 1)


def rust_pointers(given):
    """The parameters as an `extern "C"` block of Rust has them, by type."""
    kinds = []
    for _, kind in given:
        written, number, length = taken_apart(kind)
        kinds += [number] if length is None else [f"*{'mut' if written else 'const'} {number}"] + (["usize"] if length == "" else [])
    return kinds


def in_rust(name, given, back, rust):
    found = re.findall(rf"^entry! {{\n(?:\s*///.*\n)*\s*(\w+) = {name}\(([^)]*)\)", rust, re.M)
    if found or back == "u64":
        has = [(function, parameters(text)) for function, text in found]
        expect(f"bindings/rust: {name}", has, [(name.replace("zorambi_", "", 1), given)])
        return
    # one that gives nothing back is declared by itself
    found = re.search(rf"\bfn {name}\(([^)]*)\)(?: -> (\w+))?;", rust)
    expect(f"bindings/rust: {name}", found and ([kind for _, kind in parameters(found[1])], found[2]), (rust_pointers(given), back))


def python_entries():
    """The entries of the package, with a library of stand-ins."""
    package = types.ModuleType("zorambi")
    package.__path__ = [str(ROOT / "bindings" / "python" / "zorambi")]
    sys.modules["zorambi"] = package
    sys.dont_write_bytecode = True
    import zorambi._library as library

    class StandIn:
        _name = "a stand-in"

        def __getattr__(self, name):
            return types.SimpleNamespace(name=name)

    library.load = StandIn
    import zorambi.entries as entries
    return {entry.name: entry for entry in entries.ALL}


def in_python(name, given, back, entries):
    entry = entries.get(name)
    wanted, wanted_types = [], []
    for what, kind in given:
        written, number, length = taken_apart(kind)
        declared = ("" if written or length is None else "const ") + C_NUMBERS.get(number, number)
        wanted.append((what, declared if length is None else f"{declared}[{length}]" if length else f"{declared} *"))
        wanted_types += [CTYPES.get(number)] if length is None else [ctypes.c_void_p] + ([ctypes.c_size_t] if length == "" else [])
    has = entry and [(what, kind.declared) for what, kind in entry.parameters]
    expect(f"bindings/python: {name}", has, wanted)
    has = entry and (entry._function.name, entry._function.argtypes, entry._function.restype)
    expect(f"bindings/python: types of {name}", has, (name, wanted_types, CTYPES.get(back, back)))


def main():
    header = (ROOT / "include" / "zorambi.h").read_text()
    rust = (ROOT / "bindings" / "rust" / "src" / "entries.rs").read_text()
    entries = python_entries()
    source = source_entries()
    if not source:
        print("no entry is found in crates/")
        print("0 passed, 1 failed")
        return 1
    names = sorted(source)
    expect("include/zorambi.h: the entries", sorted(re.findall(r"^\w+ (zorambi_\w+)\([^)]*\);", header, re.M)), names)
    in_bindings = re.findall(r"^\s*\w+ = (zorambi_\w+)\(", rust, re.M) + re.findall(r"^ +fn (zorambi_\w+)\(", rust, re.M)
    expect("bindings/rust: the entries", sorted(in_bindings), names)
    expect("bindings/python: the entries", sorted(entries), names)
    # what the macro of the Rust crate gives back
    expect("bindings/rust: what an entry gives back", re.findall(r"fn \$entry\(\$\(\$c\)\*\) -> (\w+);", rust), ["u64"])
    for name, (given, back) in source.items():
        in_header(name, given, back, header)
        in_rust(name, given, back, rust)
        in_python(name, given, back, entries)
    print(f"{passed} passed, {failed} failed")
    return 1 if failed else 0


if __name__ == "__main__":
    sys.exit(main())
