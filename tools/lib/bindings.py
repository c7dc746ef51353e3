"""The exports of dine_ffi, as its sources have them, what C, Rust and Python have to declare for each, and the module
of the crate as C: the files that tools/bindings writes."""
import re
import shutil
import subprocess

from lib.files import HOME, paths, sum_of, text_of

# The types that cross, with their names in C, Rust and Python. A number goes as it is, the others behind a pointer.
NUMBERS = {"u32": ("uint32_t", "u32", "Number"), "u64": ("uint64_t", "u64", "c_uint64"),
           "bool": ("bool", "bool", "c_bool")}
STRUCTS = {"DineEvent": ("dine_event", "Event"), "DineEnds": ("dine_ends", "Ends"),
           "DineSiteState": ("dine_site_now", "SiteState"), "DinePlace": ("dine_place", "Place")}
POINTED = {"Handle": ("dine_handle", "Handle", "Handle"), "u8": ("uint8_t", "u8", "c_uint8"),
           "u32": ("uint32_t", "u32", "c_uint32"), **{it: (c, rust, rust) for it, (c, rust) in STRUCTS.items()}}
# The module as C, and a note of the wasm2c that made it, since another one writes other C, and of the module.
WASM, MODULE = "bindings/dine_ffi.wasm", ("bindings/c/nokit/module.c", "bindings/c/nokit/module.h")
MADE = "bindings/c/nokit/module.made"


def sources():
    """Returns the sources of dine_ffi, one text."""
    return "\n".join(map(text_of, paths("crates/dine_ffi/src/*.rt")))


def exports():
    """Returns the name of each export, without 'dine_raw_', with the names and types of what crosses."""
    found = re.findall(r'pub extern "C" fn dine_raw_(\w+)\(([^)]*)\) -> i64', sources())
    pairs = {name: [it.strip().split(": ", 1) for it in params.split(",") if ": " in it] for name, params in found}
    return [(name, [(arg, kind) for arg, kind in it if kind != "Global"]) for name, it in pairs.items()]


def structs():
    """Returns the fields of each struct that crosses; each is a u32."""
    bodies = {name: re.search(rf"pub struct {name} {{(.*?)\n}}", sources(), re.S)[1] for name in STRUCTS}
    return [(name, re.findall(r"pub (\w+): u32,", body)) for name, body in bodies.items()]


def arguments(params):
    """Returns each argument of a call: its name, what C declares with the name in it, and its types in Rust and
    Python. A list is two arguments."""
    found = []
    for arg, kind in params:
        if kind in NUMBERS:
            c, rust, python = NUMBERS[kind]
            found.append((arg, f"{c} {arg}", rust, python))
            continue
        c, rust, python = POINTED[re.search(r"\w+(?=]?$)", kind)[0]]
        of_c, of_rust = ("", "mut") if kind.startswith("&mut ") else ("const ", "const")
        found.append((arg, f"{of_c}{c} *{arg}", f"*{of_rust} {rust}", f"POINTER({python})"))
        if kind.endswith("]"):
            found.append((f"{arg}_len", f"size_t {arg}_len", "usize", "c_size_t"))
    return found


def listed(params, of=1):
    """Returns a part of each argument of a call, in a text."""
    return ", ".join(it[of] for it in arguments(params))


def guards(params):
    """Returns the lines of C that answer null pointers, and two handles that are one."""
    lines = ""
    for arg, kind in params:
        if kind.endswith("]"):
            lines += f"    if (!{arg}) {{\n        if ({arg}_len)\n            return DINE_NULL;\n"
            lines += f"        {arg} = (void *)&nothing;\n    }}\n"
        elif kind.startswith("&"):
            lines += f"    if (!{arg})\n        return DINE_NULL;\n"
    handles = [arg for arg, kind in params if kind == "&mut Handle"]
    if len(handles) == 2:
        lines += f"    if ({' == '.join(handles)})\n        return DINE_SAME_HANDLE;\n"
    return lines


def c_declaration(name, params):
    return f"int64_t dine_raw_{name}({listed(params)});\n"


def c_call(name, params):
    passed = f"    return dine_raw_{name}({listed(params, 0)});\n"
    return f"\nint64_t dine_{name}({listed(params)}) {{\n{guards(params)}{passed}}}\n"


def nokit_call(name, params):
    """Returns a call that lends what is behind a pointer to the module."""
    lent, words = "", "&module"
    for arg, kind in params:
        is_list, is_lent = kind.endswith("]"), kind not in NUMBERS
        size = f"{arg}_len * sizeof *{arg}" if is_list else f"sizeof *{arg}"
        how = f"lend(&it, {arg}, {size}, {'true' if kind.startswith('&mut') else 'false'})"
        how = f"lend_handle(&it, {arg})" if kind == "&mut Handle" else how
        lent += f"    u64 {arg}_at = {how};\n" * is_lent
        words += f", {arg}" + "_at" * is_lent + f", {arg}_len" * is_list
    return f"""
int64_t dine_raw_{name}({listed(params)}) {{
    call it = begin();
{lent}    if (!it.fits)
        return end(&it, DINE_MEMORY);
    return end(&it, (int64_t)Z_dine_ffiZ_dine_raw_{name}({words}));
}}
"""


def rust_struct(name, fields):
    lines = "".join(f"    pub {field}: u32,\n" for field in fields)
    return f"#[repr(C)]\n#[derive(Clone, Copy, Default)]\npub struct {STRUCTS[name][1]} {{\n{lines}}}\n\n"


def rust_call(name, params):
    lines = "".join(f"        {arg}: {rust},\n" for arg, _, rust, _ in arguments(params))
    return f"    pub fn dine_{name}(\n{lines}    ) -> i64;\n"


def python_struct(name, fields):
    row = ", ".join(f'"{field}"' for field in fields)
    return f"\n\nclass {STRUCTS[name][1]}(Structure):\n    _fields_ = [(it, c_uint32) for it in ({row})]\n"


def python_call(name, params):
    return f'    "dine_{name}": [{listed(params, 3)}],\n'


def faults_of_header():
    """Returns what dine.h declares otherwise than the exports. Its arguments may have other names, which say more."""
    text = re.sub(r"/\*.*?\*/", "", text_of("bindings/c/dine.h"), flags=re.S)
    there = {name: " ".join(params.split()) for name, params in re.findall(r"int64_t dine_(\w+)\(([^)]*)\);", text)}
    wanted = {name: listed(params) for name, params in exports()}
    there, wanted = ({name: re.sub(r"\w+(?=,|$)", "", it[name]) for name in it} for it in (there, wanted))
    faults = [f"dine_{it}" for it in there.keys() | wanted.keys() if there.get(it) != wanted.get(it)]
    faults += [f"dine_{name} lends more than MOST of loans.h" for name, params in exports()
               if sum(kind.startswith("&") for _, kind in params) > 3]
    for name, fields in structs():
        if f"typedef struct {STRUCTS[name][0]} {{ uint32_t {', '.join(fields)}; }} {STRUCTS[name][0]};" not in text:
            faults.append(f"struct {STRUCTS[name][0]}")
    return sorted(faults)


# What is written in each file between two texts: for each export or struct a text of these forms. All else in it stays
# as it is.
PARTS = {
    "bindings/c/dine.c": [("static uint32_t nothing;\n\n", "", (exports, c_declaration), (exports, c_call))],
    "bindings/c/nokit/calls.c": [('#include "loans.h"\n', "", (exports, nokit_call))],
    "bindings/rust/src/sys.rs": [("    pub state: u32,\n}\n\n", 'extern "C" {\n', (structs, rust_struct)),
                                 ('extern "C" {\n', "}\n", (exports, rust_call))],
    "bindings/python/dine/_calls.py": [("2**32 - 1)\n", "\n\nCALLS = {\n", (structs, python_struct)),
                                       ("CALLS = {\n", "}\n", (exports, python_call))],
}


def written(path):
    """Returns the text of a file as it has to be."""
    text = text_of(path)
    for begin, end, *forms in PARTS[path]:
        at = text.index(begin) + len(begin)
        part = "".join(form(*it) for found, form in forms for it in found())
        text = text[:at] + part + (text[text.index(end, at):] if end else "")
    return text


def makers():
    """Returns what the note says if this machine makes the C: the version of wasm2c, and a sum of the module."""
    words = ["wasm2c", "--version"]
    version = subprocess.run(words, capture_output=True, text=True).stdout.strip() if shutil.which("wasm2c") else "none"
    return f"wasm2c {version}\n{sum_of(f'{HOME}/{WASM}')}\n"


def module_as_c(folder):
    """Writes the module as C to a folder, by wasm2c."""
    subprocess.run(["wasm2c", f"{HOME}/{WASM}", "-o", f"{folder}/module.c", "-n", "dine_ffi"], check=True)
