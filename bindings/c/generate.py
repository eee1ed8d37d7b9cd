#!/usr/bin/env python3
"""Writes what crates/rtr_c declares: the structs, numbers, prototypes, texts and inline calls of
rtr.h, whose prose and order stay; the functions behind them, in rtr_abi.h; layout.c, by which a C
compiler compares the places of fields; and the symbols of the shared library, in
debian/librtr-wire0.symbols.

usage: generate.py [--check]    with --check it writes nothing, and exits with status 1 if a file
                             isn't what the crate says
"""
import pathlib
import re
import sys
import textwrap

HERE = pathlib.Path(__file__).resolve().parent
sys.dont_write_bytecode = True
sys.path.insert(0, str(HERE.parent))

import calls

WIDTH = 100

# Structs whose fields are private: they have no comments here.
PRIVATE = ("rtr_tables", "rtr_lookup", "rtr_check", "rtr_link", "rtr_stores")

# Names of parameters that C++ doesn't allow, or that are longer than they have to be in C.
RENAMED = {"new": "data", "text_length": "length"}

# The functions that replace a null pointer of a slice before the archive's call.
CHANGED = {("u8", "const"): "rtr_readable", ("u8", "mut"): "rtr_writable"}

ABI_FRONT = """\
/* The functions of the archive behind the calls of rtr.h that take slices: their names have
 * _nonnull added, and rtr_link_state_of is behind rtr_link_state. No pointer may be null; with
 * length 0 any other pointer is allowed. rtr.h includes this file and documents its calls, which
 * programs use. `generate` made this file of the crate rtr_c: don't edit it.
 *
 * Copyright (c) 2026, the authors of Fishreef
 * BSD 3-Clause License: see the file LICENSE at the top of the repository.
 */
#ifndef FISHREEF_RTR_ABI_H
#define FISHREEF_RTR_ABI_H

#include <stdbool.h>
#include <stddef.h>
#include <stdint.h>

#ifdef __cplusplus
extern "C" {
#endif
"""

ABI_END = """
#ifdef __cplusplus
}
#endif

#endif
"""

LAYOUT_FRONT = """\
/* The sizes of structs and the places of their fields, if a size_t has eight bytes. `generate` made
 * this file of the crate rtr_c: don't edit it. */
#include "rtr.h"

#define AT(type, field, offset) \\
    _Static_assert(offsetof(struct type, field) == (offset), #type " " #field)

_Static_assert(sizeof(bool) == 1, "bool");

#if SIZE_MAX == UINT64_MAX"""

# The symbols of the shared library: the functions of the archive, and those of the client and the
# cache.
SYMBOLS = HERE.parents[1] / "debian" / "librtr-wire0.symbols"
SYMBOLS_HEAD = """\
librtr_wire.so.0 librtr-wire0 #MINVER#
* Build-Depends-Package: librtr-wire-dev
"""
DECLARED = re.compile(r"^(?:const )?(?:enum )?\w+ \*?(rtr_\w+)\(", re.MULTILINE)


# ---- types and prototypes

def in_c(kind):
    """Returns a type as C spells it."""
    return calls.TYPES[kind][0] if kind in calls.TYPES else f"struct {kind}"


def named(parameter):
    """Returns the name of a parameter in C."""
    return RENAMED.get(parameter.name, parameter.name)


def declared(parameter):
    """Returns the declarations of a parameter: that of a slice has a pointer and a length."""
    star = "*" if parameter.pointer else ""
    const = "const " if parameter.pointer == "const" else ""
    name = named(parameter)
    front = f"{const}{in_c(parameter.kind)} {star}{name}"
    return f"{front}, size_t {name}_length" if parameter.slice else front


def filled(front, parts, end):
    """Returns the lines of a list of parts behind a front, which the next lines are indented to. A
    slice's pointer and length stay on one line."""
    lines, indent = [front], " " * len(front)
    for part, after in zip(parts, [", "] * (len(parts) - 1) + [end]):
        if len(lines[-1] + part + after.rstrip()) > WIDTH:
            lines[-1] = lines[-1].rstrip()
            lines.append(indent)
        lines[-1] += part + after
    return "\n".join(lines)


def prototype(call):
    """Returns the prototype of a function of the archive."""
    result = calls.TYPES[call.result][0] if call.result else "void"
    taken = [declared(param) for param in call.parameters]
    return filled(f"{result} {call.name}(", taken or ["void"], ");")


# ---- the calls over them

def passed(param, owner):
    """Returns what a call of the page passes on for one param: of a struct of buffers a slice,
    or only its length."""
    name = f"{owner}->{param.name}" if owner else named(param)
    if not param.slice:
        return f"{name}_length" if owner else name
    change = CHANGED.get((param.kind, param.pointer))
    pointer = f"{change}({name})" if change else f"{name} ? {name} : &nowhere"
    return f"{pointer}, {name}_length"


def inline(call):
    """Returns the call of the page over a function of the archive."""
    groups, _ = calls.buffers_of(call)
    owners = {name: group for group, (_, found) in groups.items() for name in found}
    taken = [declared(param) for param in calls.page_parameters(call)]
    result = calls.TYPES[call.result][0] if call.result else "void"
    lines = [filled(f"static inline {result} {call.called()}(", taken, ")"), "{"]
    for param in call.parameters:
        if param.slice and (param.kind, param.pointer) not in CHANGED:
            const, start = ("const ", " = {0}" if param.kind not in calls.TYPES else " = 0") \
                if param.pointer == "const" else ("", "")
            lines.append(f"    static {const}{in_c(param.kind)} nowhere{start};")
    front = f"    {'return ' if call.result else ''}{call.name}("
    lines.append(filled(front, [passed(param, owners.get(param.name)) for param in call.parameters],
                        ");"))
    return "\n".join([*lines, "}"])


def text_call(enum):
    """Returns the call that returns the text of a member of an enum."""
    listed, other = calls.texts(enum)
    name = enum.removeprefix("rtr_").split("_")[-1]
    rows = "\n".join(f'        "{text}",' if text else "        0," for text in listed)
    first = f"    return {name} < sizeof texts / sizeof *texts && texts[{name}] ? texts[{name}]"
    rest = f': "{other}";'
    gap = " " if len(first) + len(rest) < WIDTH else "\n" + " " * (first.rindex("?"))
    return (f"static inline const char *{enum}_text(uint8_t {name})\n{{\n"
            f"    static const char *const texts[] = {{\n{rows}\n    }};\n{first}{gap}{rest}\n}}")


# ---- structs and numbers

def beside(declarations, widest):
    """Yields the lines of declarations, each with its comment beside it, in one column unless a
    line is longer than the widest one."""
    wide = max((len(line) for line, about in declarations if about and len(line) <= widest),
               default=0)
    for line, about in declarations:
        front = f"    {line:{wide}} "
        if not about:
            yield f"    {line}"
            continue
        rows = textwrap.wrap(about, WIDTH - 3 - len(front) - 3, break_on_hyphens=False)
        yield f"{front}/* {rows[0]}" + (" */" if len(rows) == 1 else "")
        for row in rows[1:]:
            yield f"{' ' * len(front)}   {row}" + (" */" if row is rows[-1] else "")


def words(about):
    """Returns a sentence as a comment beside a declaration: without a capital and a full stop."""
    first = about.split(" ")[0]
    front = first[:1].lower() + first[1:] if first[1:].islower() or first == "A" else first
    return (front + about[len(first):]).removesuffix(".")


def struct(structure):
    """Returns a struct. Fields of one type without comments stand on one line."""
    lines = []
    for field in structure.fields:
        about = "" if structure.name in PRIVATE else words(field.about)
        name = f"{field.name}[{field.many}]" if field.many else field.name
        kind = in_c(field.kind)
        if lines and not about and not lines[-1][1] and lines[-1][0].startswith(f"{kind} ") \
                and len(f"    {lines[-1][0]}, {name};") < WIDTH:
            lines[-1] = (f"{lines[-1][0]}, {name}", "")
        else:
            lines.append((f"{kind} {name}", about))
    body = "\n".join(beside([(f"{line};", about) for line, about in lines], 28))
    return f"struct {structure.name} {{\n{body}\n}};"


def enum(enumeration):
    """Returns an enum."""
    last = enumeration.members[-1][0]
    lines = [(f"{name} = {number}{'' if name == last else ','}", about)
             for name, number, about in enumeration.members]
    return f"enum {enumeration.name} {{\n" + "\n".join(beside(lines, 44)) + "\n};"


# ---- the files

def rtr_h():
    """Returns the page, with the declarations of the crate."""
    text, number = calls.page(), calls.version()
    text = re.sub(r'(#define RTR_WIRE_VERSION )".*"', rf'\g<1>"{number[0]}"', text)
    text = re.sub(r"(#define RTR_WIRE_VERSION_NUMBER )\d+", rf"\g<1>{number[1]}", text)
    for name, value, _ in calls.constants():
        text = re.sub(rf"^(#define {name}) \d+", rf"\1 {value}", text, flags=re.MULTILINE)
    for enumeration in calls.enums():
        text = placed(text, rf"^enum {enumeration.name}(?: \{{\n.*?\n\}};|;)$", enum(enumeration))
    for structure in calls.structs():
        text = placed(text, rf"^struct {structure.name}(?: \{{\n.*?\n\}};|;)$", struct(structure))
    for call in calls.calls():
        name = call.called()
        if name == call.name:
            text = placed(text, rf"^(?:\w+ )?{name}(?:\([^;]*\))?;$", prototype(call))
        elif name not in calls.BY_HAND:
            text = placed(text, rf"^(?:static inline [^\n]*\b{name}\(.*?\n\}}|{name};)$",
                          inline(call))
    for name in calls.TEXTS.keys() - {"rtr_code"}:
        text = placed(text, rf"^static inline const char \*{name}_text\(.*?\n\}}$",
                      text_call(name))
    return text


def placed(text, pattern, declaration):
    """Returns the page with the match of the pattern replaced by a declaration."""
    text, count = re.subn(pattern, lambda _: declaration, text, flags=re.MULTILINE | re.DOTALL)
    if count != 1:
        calls.fail(f"rtr.h has {count} declarations like: {declaration.splitlines()[0]}")
    return text


def rtr_abi_h():
    """Returns the functions behind the calls that take slices."""
    behind = [call for call in calls.calls() if call.called() != call.name]
    names = {param.kind for call in behind for param in call.parameters} - calls.TYPES.keys()
    lines = [ABI_FRONT, *(f"struct {name};" for name in sorted(names)), "",
             *map(prototype, behind)]
    return "\n".join(lines) + "\n" + ABI_END


def layout():
    """Returns the file that compares the places of fields."""
    lines = [LAYOUT_FRONT]
    for structure in calls.structs():
        name = structure.name
        lines.append(f'_Static_assert(sizeof(struct {name}) == {structure.size}, "{name}");')
        lines += [f"AT({name}, {field.name}, {field.offset});" for field in structure.fields] + [""]
    return "\n".join(lines + ["#endif"]) + "\n"


def symbols():
    """Returns the file of symbols. Before 1.0 each second number of a version has symbol versions
    of its own: a program that needs those of another isn't loaded."""
    series = ".".join(calls.version()[0].split(".")[:2])
    names = [call.name for call in calls.calls()]
    for end in ("client", "cache"):
        text = (HERE / f"rtr_{end}.h").read_text()
        names += DECLARED.findall(re.sub(r"/\*.*?\*/", "", text, flags=re.DOTALL))
    lines = [f" {name}@RTR_WIRE_{series} {series}.0\n"
             for name in [f"RTR_WIRE_{series}", *sorted(names)]]
    return SYMBOLS_HEAD + "".join(lines)


calls.write({calls.PAGE: rtr_h(), calls.PAGE.with_name("rtr_abi.h"): rtr_abi_h(),
             HERE / "layout.c": layout(), SYMBOLS: symbols()}, "bindings/c/generate.py")
