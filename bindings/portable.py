#!/usr/bin/env python3
"""Prints the calls of rtr.h as a C file for any platform, made of the proved module rtr_wire.wasm.

usage: portable.py MODULE MOVED

MODULE is the module with 32-bit memory. wabt's wasm2c, in the version of Debian 12, makes C of it,
in which this script puts the host's memory in the place of the module's:

  - wasm2c narrows each 64-bit address before a load or a store, as binaryen has it; here it stays;
  - constants that are addresses of the module's data become addresses of an array in C. MOVED tells
    them from other numbers: the same module, linked with its data in another place, so that only
    these numbers differ;
  - the module's stack is an array in each call's frame, as long as the deepest calls need it, and
    the module's own look at how much of it is left goes by where that begins;
  - what wasm2c has before and after its functions, as tables, traps and memories that grow, is left
    out: portable_front.h has all that the functions use.

Each call of rtr.h follows from its prototype. Whatever isn't as expected ends the script.
"""
import pathlib
import re
import subprocess
import sys
import tempfile

HERE = pathlib.Path(__file__).resolve().parent
sys.dont_write_bytecode = True
sys.path.insert(0, str(HERE))

import calls as model

# The version of wabt, whose C the patterns below match.
WABT = "1.0.32"

CALLED = "w2c_rtr_"
NUMBER = re.compile(r"\b(?:0x[0-9a-f]+|\d+)")

# A load or a store, whose address is on wasm2c's stack at some depth; a copy or a fill of bytes;
# the line before them that narrows an address; and a line that sets a variable of that stack.
ACCESS = re.compile(r"(i(?:32|64)_(?:load|store)\w*)\(&instance->w2c_memory, "
                    r"\(u64\)\(w2c_i(\d+)\)")
BULK = re.compile(r"(memory_copy|memory_fill)\((?:&instance->w2c_memory, ){1,2}"
                  r"w2c_i(\d+), w2c_i(\d+), w2c_i(\d+)\)")
NARROWED = re.compile(r"\s*w2c_i(\d+) = \(u32\)\(w2c_j\1\);")
SET = re.compile(r"\s*w2c_([ij]\d+) \S*= ")

# Where a function reads the top of the module's stack, takes a frame, and looks whether 16 bytes
# are left below it, as each function does that reads it.
TOP = re.compile(r"= instance->w2c_g0;")
FRAME = re.compile(r"w2c_j(\d+) = instance->w2c_g0;\s+w2c_j(\d+) = (\d+)ull;\s+"
                   r"w2c_j\1 -= w2c_j\2;")
LEFT = re.compile(r"(w2c_j\d+) = (1[56])ull;(\s+w2c_i\d+ = \(u64\)\(\(s64\)w2c_j\d+ [<>] "
                  r"\(s64\)\1\);)")

# How deep a function may call itself: quicksort does at most 126 times, twice the logarithm of a
# length. Behind that the module's look at its stack ends the program.
DEEPEST = 128


def refuse(reason):
    sys.exit(f"bindings/portable.py: {reason}")


def translated(module):
    """Returns the C file that wasm2c makes of a module."""
    try:
        version = subprocess.run(["wasm2c", "--version"], capture_output=True, text=True).stdout
    except FileNotFoundError:
        version = ""
    if version.strip() != WABT:
        refuse(f"no wasm2c of wabt {WABT} here (Debian 12's): call apt-get install wabt")
    with tempfile.TemporaryDirectory() as folder:
        file = pathlib.Path(folder, "made.c")
        subprocess.run(["wasm2c", module, "-n", "rtr_wire", "-o", file], check=True)
        return file.read_text()


def parts(text):
    """Returns the functions' declarations, the address of the data, their bytes, and the
    functions."""
    declared = re.search(r"^static u32 w2c_f0\(.*?(?=^static void init_globals)", text,
                         re.MULTILINE | re.DOTALL)[0]
    data = re.findall(r"^static const u8 data_segment_data_w2c_d\d+\[\] = \{(.*?)\};$", text,
                      re.MULTILINE | re.DOTALL)
    start = re.findall(r"^  LOAD_DATA\(instance->w2c_memory, (\d+)u, ", text, re.MULTILINE)
    globals_set = re.findall(r"^  instance->(\w+) = ", text, re.MULTILINE)
    if len(data) != 1 or len(start) != 1 or "wasm_rt_funcref" in declared:
        refuse("the module has more than one part of data, or a table")
    if set(globals_set) - {"w2c_g0", "w2c_g1", "w2c___heap_base"}:
        refuse("the module has other globals than its stack and its guard")
    functions = re.search(r"^static u32 w2c_f0\(\w+\* instance\) \{.*?(?=^/\* export: )", text,
                          re.MULTILINE | re.DOTALL)[0]
    return declared, int(start[0]), bytes(int(byte, 16) for byte in
                                          re.findall(r"0x\w\w", data[0])), functions


# ---- addresses of the module's data

def placed(functions, moved, start, by, size):
    """Returns the functions, in which AT(n) is the address of byte n of the data."""
    if NUMBER.sub("", functions) != NUMBER.sub("", moved):
        refuse("the two modules differ in more than addresses")
    others = iter(NUMBER.findall(moved))

    def address(found):
        number, other = int(found[0], 0), int(next(others), 0)
        if number == other:
            return found[0] + found[1]
        if other - number != by or not start <= number <= start + size:
            refuse(f"{number} and {other} are no address of the data")
        return f"AT({number - start})"
    return re.sub(rf"({NUMBER.pattern})(ull|u)?", lambda found: address(
        (found[1], found[2] or "")), functions)


def cells(data, moved, start, by):
    """Yields the data in rows of eight bytes, for C: each eight bytes or an address in the data."""
    data, moved = (part + bytes(-len(part) % 8) for part in (data, moved))
    for at in range(0, len(data), 8):
        number, other = (int.from_bytes(part[at:at + 8], "little") for part in (data, moved))
        if number == other:
            yield "BYTES({})".format(", ".join(f"{byte}" for byte in data[at:at + 8]))
        elif other - number == by and start <= number <= start + len(data):
            yield f"ADDRESS({number - start})"
        else:
            refuse(f"the data at {at} are no address of the data")


# ---- 64-bit addresses, and the host's memory

def widened(function):
    """Returns a function whose loads and stores take the 64-bit addresses that it narrows before
    them."""
    lines, narrowed = [], {}

    def wide(depth):
        if depth not in narrowed:
            refuse(f"an address isn't narrowed where it is used: {lines[-1]}")
        lines[narrowed.pop(depth)] = None
        return f"w2c_j{depth}"

    for line in function.split("\n"):
        line = ACCESS.sub(lambda found: f"{found[1]}({wide(found[2])}", line)
        copied = BULK.search(line)
        if copied:
            middle = wide(copied[3]) if copied[1] == "memory_copy" else f"w2c_i{copied[3]}"
            line = BULK.sub(f"{copied[1]}({wide(copied[2])}, {middle}, {wide(copied[4])})", line)
        changed = SET.match(line)
        if changed:
            narrowed.pop(changed[1][1:], None)
        found = NARROWED.fullmatch(line)
        if found:
            narrowed[found[1]] = len(lines)
        lines.append(line)
    return "\n".join(line for line in lines if line is not None)


def shortened(text):
    """Returns the functions with shorter names, without the lines that wasm2c has for other
    hosts."""
    for old, new in ((r"^\s*FUNC_(PROLOGUE|EPILOGUE);\n", ""), (r"Z_rtr_wire_instance_t\*", "M *"),
                     (r"\bM \* instance\b", "M *m"), (r"instance->w2c_", "m->"),
                     (r"\binstance\b", "m"), (r"\bUNREACHABLE;", "abort();"),
                     (r"\bw2c_([ijlpBL])(\d+|func)\b", r"\1\2"), (r"[ \t]+$", ""),
                     (r"\) \{goto (\w+);\}", r") goto \1;"), (r"^ +", "")):
        text = re.sub(old, new, text, flags=re.MULTILINE)
    return text


def frame(name, body):
    """Returns how many bytes of the stack a function takes."""
    frames = FRAME.findall(body)
    if len(TOP.findall(body)) != len(LEFT.findall(body)) or len(frames) > 1:
        refuse(f"{name} doesn't look once at how much of the stack is left")
    return int(frames[0][2]) if frames else 0


def depths(functions):
    """Returns how many bytes of the stack each function needs, with those that it calls."""
    bodies = dict(re.findall(r"^static \w+ (w2c_\w+)\([^)]*\) \{\n(.*?)^\}", functions,
                             re.MULTILINE | re.DOTALL))
    known = {}

    def depth(name, above):
        if name in above:
            refuse(f"{name} calls itself by way of others")
        if name not in known:
            called = set(re.findall(r"\b(w2c_\w+)\(instance", bodies[name]))
            times = DEEPEST if name in called else 1
            known[name] = times * frame(name, bodies[name]) + max(
                (depth(other, (*above, name)) for other in called - {name}), default=0)
        return known[name]
    return {name: depth(name, ()) for name in bodies}


# ---- the calls of rtr.h

def fields(name, structs, prefix="", start=0):
    """Yields the numbers of a struct: its name, its size and offset in the module, and its
    count."""
    for field in structs[name].fields:
        path, at = f"{prefix}{field.name}", start + field.offset
        if field.kind in structs:
            for index in range(field.many or 1):
                inner = f"{path}[{index}]." if field.many else f"{path}."
                yield from fields(field.kind, structs, inner,
                                  at + index * structs[field.kind].size)
        else:
            yield path, model.TYPES[field.kind][1], at, field.many or 1


def layouts(structs, used):
    """Checks of structs that aren't copied, and the tables by which those are that calls use."""
    sizes = dict(model.TYPES.values())
    for name, struct in structs.items():
        yield f"SAME_SIZE({name}, {struct.size})"
    yield "\n#ifdef COPIES"
    for name in sorted(used):
        if name in structs:
            size = structs[name].size
            yield f"static const struct field {name}_fields[] = {{"
            for field, width, at, many in fields(name, structs):
                here = f"offsetof(struct {name}, {field})"
                each = f"sizeof ((struct {name} *)0)->{field}" + ("[0]" if many > 1 else "")
                yield f"    {{{here}, {each}, {at}, {width}, {many}}},"
            yield f"}};\nLAYOUT({name}, struct {name}, {size});"
        else:
            size = sizes[name]
            yield (f"static const struct field {name}_fields[] = "
                   f"{{{{0, sizeof({name}), 0, {size}, 1}}}};\nLAYOUT({name}, {name}, {size});")
    yield "#endif\n"


def lent(kind, name, after):
    """Returns the type that a pointer points at, and the parameter with the count of it; None for
    bytes."""
    if not kind.endswith("*") or kind.removeprefix("const ") == "uint8_t *":
        return None
    what = kind.removeprefix("const ").removeprefix("struct ").rstrip(" *")
    return what, after if after == f"{name}_length" else None


def call(name, answer, taken, depth):
    """Returns the C code of a call."""
    before, behind, passed, counts = [], [], ["&m"], {}
    names = [parameter for _, parameter in taken] + [None]
    for (kind, parameter), after in zip(taken, names[1:]):
        pointed = lent(kind, parameter, after)
        if pointed is None:
            passed.append(f"HERE({parameter})" if kind.endswith("*")
                          else counts.get(parameter, parameter))
            continue
        what, count = pointed
        which, rest = ("LEND_MANY", f", {count}") if count else ("LEND", "")
        before.append(f"{which}({parameter}, {what}{rest});")
        ends = [] if kind.startswith("const ") else [f"TAKE{which[4:]}({parameter}, {what});"]
        behind += ends + ([f"END_MANY({parameter});"] if count else [])
        passed.append(f"{parameter}_at")
        if count:
            counts[count] = f"{parameter}_many"
    result = "" if answer == "void" else f"{answer} result = ({answer})"
    lines = [f"START({depth});", *before, f"{result}w2c_{name}({', '.join(passed)});", *behind]
    lines += ["return result;"] if result else []
    head = ", ".join(f"{kind}{parameter}" for kind, parameter in taken) or "void"
    return f"{answer} {name}({head})\n{{\n" + "\n".join(f"    {line}" for line in lines) + "\n}\n"


def in_c(call):
    """Returns a function of the archive in C: its name, its result, and each parameter's type and
    name."""
    taken = []
    for param in call.parameters:
        kind = model.TYPES[param.kind][0] if param.kind in model.TYPES else f"struct {param.kind}"
        const = "const " if param.pointer == "const" else ""
        taken.append((f"{const}{kind} {'*' if param.pointer else ''}", param.name))
        taken += [("size_t ", f"{param.name}_length")] if param.slice else []
    return call.name, model.TYPES[call.result][0] if call.result else "void", taken


def calls(depth):
    """Yields the code of all calls of rtr.h, which are those that the module has."""
    declared = [in_c(call) for call in model.calls()]
    exported = {name[4:] for name in depth if name.startswith(CALLED)}
    if exported != {name for name, _, _ in declared}:
        others = exported ^ {name for name, _, _ in declared}
        refuse(f"crates/rtr_c and the module differ in {others}")
    structs = {struct.name: struct for struct in model.structs()}
    used = {pointed[0] for _, _, taken in declared for kind, name in taken
            if (pointed := lent(kind, name, None))}
    yield from layouts(structs, used)
    for name, answer, taken in declared:
        yield call(name, answer, taken, depth[f"w2c_{name}"])


def portable(module, moved):
    """Returns the whole file."""
    declared, start, data, functions = parts(module)
    _, other_start, other_data, others = parts(moved)
    by = other_start - start
    if by == 0:
        refuse("the second module has its data where the first has them")
    depth = depths(functions)
    code = placed(functions, others, start, by, len(data))
    code = LEFT.sub(r"\1 = m->lowest + \2;\3", code)
    code = shortened("\n\n".join(widened(function) for function in code.split("\n\n")))
    front = (HERE / "c" / "portable_front.h").read_text()
    rows = ",\n".join(cells(data, other_data, start, by))
    return "\n".join([front.replace("/* rows */", rows), shortened(declared), code,
                      "/* The calls of rtr.h. */\n", *calls(depth)])


if __name__ == "__main__":
    if len(sys.argv) != 3:
        sys.exit(__doc__)
    print(portable(*(translated(module) for module in sys.argv[1:])), end="")
