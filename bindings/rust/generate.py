#!/usr/bin/env python3
"""Writes src/abi.rs, the structs, constants and functions of crates/rtr_c, and src/calls.rs, which
calls these functions with slices and returns what they write to pointers.

usage: generate.py [--check]    with --check it writes nothing, and exits with status 1 if a file
                             isn't what the crate says
"""
import pathlib
import sys
import textwrap

HERE = pathlib.Path(__file__).resolve().parent
sys.dont_write_bytecode = True
sys.path.insert(0, str(HERE.parent))

import calls

WIDTH = 100

# The enums, each with the module of its members and what is cut off from their names.
ENUMS = {"rtr_status": ("status", "RTR_"), "rtr_prefix_rule": ("prefix_rule", "RTR_"),
         "rtr_kind": ("kind", "RTR_"), "rtr_code": ("code", "RTR_CODE_"),
         "rtr_order": ("order", "RTR_SERIAL_"), "rtr_named": ("named", "RTR_NAMED_"),
         "rtr_side": ("side", "RTR_"), "rtr_validity": ("validity", "RTR_"),
         "rtr_covers": ("covers", "RTR_COVERS_"),
         "rtr_mismatch": ("mismatch", "RTR_"), "rtr_action_kind": ("action", "RTR_"),
         "rtr_phase": ("phase", "RTR_PHASE_"),
         "rtr_link_status": ("link_status", "RTR_LINK_"),
         "rtr_todo_kind": ("todo_kind", "RTR_TODO_"),
         "rtr_client_failure": ("client_failure", "RTR_CLIENT_"),
         "rtr_cause": ("cause", "RTR_CAUSE_"), "rtr_group_shown": ("group_shown", "RTR_GROUP_"),
         "rtr_group_status": ("group_status", "RTR_GROUP_"),
         "rtr_serving_kind": ("serving", "RTR_SERVE_"), "rtr_reason": ("reason", "RTR_REASON_"),
         "rtr_stores_status": ("stores_status", "RTR_STORES_"), "rtr_room": ("room", "RTR_ROOM_"),
         "rtr_time_rule": ("time_rule", "RTR_TIME_RULE_")}

# An array of more elements has no Default that could be derived.
MOST_DERIVED = 32

FRONT = """\
//! What the crate `rtr_c` declares. `generate` made this file of it: don't edit it.
#![allow(dead_code)]
"""

CALLS_FRONT = """\
//! The functions of the archive, with slices for pointers and lengths, and what they write to
//! pointers as results. `generate` made this file of the crate `rtr_c`: don't edit it.
//!
//! All are safe to call with any arguments: a slice is never null and of its length, what is
//! borrowed mutably overlaps nothing, and the functions keep no pointer.
#![allow(dead_code, clippy::too_many_arguments)]

use crate::abi;
"""


def struct_name(name):
    """Returns a struct's name as Rust spells it, without the front that all have."""
    return "".join(word.capitalize() for word in name.split("_")[1:])


def in_rust(kind):
    """Returns the type of a field or a parameter."""
    return kind if kind in calls.TYPES else struct_name(kind)


def wrapped(text, indent):
    """Yields the lines of a doc comment."""
    front = f"{indent}/// "
    yield from textwrap.wrap(calls.sentence(text), WIDTH - 1, initial_indent=front,
                             subsequent_indent=front, break_on_hyphens=False)


# ---- abi.rs

def constant_lines():
    """Yields the numbers: versions, times in seconds, and sizes in bytes."""
    yield ""
    for name, number, comment in calls.constants():
        kind = "u8" if name.endswith("_VERSION") else \
            "u32" if calls.is_time(name) or name.endswith("_LIMIT") else "usize"
        yield from wrapped(comment, "")
        yield f"pub(crate) const {name[4:]}: {kind} = {number};"


def failure_lines():
    """Yields the module of the texts of failures."""
    yield from ("", "/// Texts of failures that no call returns.", "pub(crate) mod failure {")
    for name, text in calls.failures():
        yield f'    pub(crate) const {name.removeprefix("FAILURE_")}: &str ='
        yield f'        "{text}";'
    yield "}"


def enum_lines(enum):
    """Yields the module of the members of an enum."""
    module, prefix = ENUMS.get(enum.name, (enum.name[4:], "RTR_"))
    kind = "u16" if enum.name == "rtr_code" else "u8"
    yield ""
    yield from wrapped(enum.about or f"The numbers of enum {enum.name}.", "")
    yield f"pub(crate) mod {module} {{"
    for member, number, comment in enum.members:
        yield from wrapped(comment, "    ")
        yield f"    pub(crate) const {member[len(prefix):]}: {kind} = {number};"
    yield "}"


def field_type(field):
    """Returns the type of a field."""
    return f"[{in_rust(field.kind)}; {field.many}]" if field.many else in_rust(field.kind)


def empty(field):
    """Returns the value of a field in an empty struct."""
    value = "false" if field.kind == "bool" else "0" if field.kind in calls.TYPES \
        else f"{in_rust(field.kind)}::default()"
    return f"[{value}; {field.many}]" if field.many else value


def struct_lines(struct):
    """Yields a struct, and its empty value."""
    large = any(field.many > MOST_DERIVED for field in struct.fields)
    name = struct_name(struct.name)
    yield ""
    yield "#[repr(C)]"
    yield f"#[derive(Clone, Copy, Debug{'' if large else ', Default'}, PartialEq, Eq, Hash)]"
    yield f"pub(crate) struct {name} {{"
    for field in struct.fields:
        yield from wrapped(field.about, "    ")
        yield f"    pub(crate) {field.name}: {field_type(field)},"
    yield "}"
    if large:
        yield ""
        yield f"impl Default for {name} {{"
        yield "    fn default() -> Self {"
        yield f"        {name} {{"
        for field in struct.fields:
            yield f"            {field.name}: {empty(field)},"
        yield "        }"
        yield "    }"
        yield "}"


def pointers(parameter):
    """Yields the parameters of the archive's function for one of its source."""
    star = {"const": "*const ", "mut": "*mut ", "": ""}[parameter.pointer]
    yield f"{parameter.name}: {star}{in_rust(parameter.kind)}"
    if parameter.slice:
        yield f"{parameter.name}_length: usize"


def result_of(kind):
    """Returns the result of a function, as it is declared."""
    return f" -> {kind}" if kind else ""


def function_lines():
    """Yields the functions of the archive, whose pointers are never null."""
    yield from ("", 'extern "C" {')
    for call in calls.calls():
        declared = [argument for parameter in call.parameters for argument in pointers(parameter)]
        yield f"    pub(crate) fn {call.name}("
        yield from (f"        {argument}," for argument in declared)
        yield f"    ){result_of(call.result)};"
    yield "}"


def layout_lines():
    """Yields a test that the structs are laid out as C lays them out where a usize has eight
    bytes."""
    yield from ("", '#[cfg(all(test, target_pointer_width = "64"))]', "mod tests {",
                "    use core::mem::size_of;", "    use core::ptr::addr_of;", "",
                "    /// How many bytes come before a field in a struct.",
                "    macro_rules! place {", "        ($value:ident.$field:ident) => {",
                "            addr_of!($value.$field) as usize - addr_of!($value) as usize",
                "        };", "    }", "", "    #[test]", "    fn layout() {")
    for struct in calls.structs():
        name = struct_name(struct.name)
        yield f"        let value = super::{name}::default();"
        yield f"        assert_eq!(size_of::<super::{name}>(), {struct.size});"
        for field in struct.fields:
            yield f"        assert_eq!(place!(value.{field.name}), {field.offset});"
    yield from ("    }", "}")


def abi():
    """Returns the file of all declarations."""
    lines = [*constant_lines(), *failure_lines()]
    for enum in calls.enums():
        lines += enum_lines(enum)
    for struct in calls.structs():
        lines += struct_lines(struct)
    return FRONT + "\n".join([*lines, *function_lines(), *layout_lines()]) + "\n"


# ---- calls.rs

def listed(front, parts, end, indent=""):
    """Yields a list of parts: on one line, or a line for each."""
    line = f"{indent}{front}{', '.join(parts)}{end}"
    if len(line) <= WIDTH:
        yield line
        return
    yield f"{indent}{front}"
    yield from (f"{indent}    {part}," for part in parts)
    yield f"{indent}{end}"


def qualified(kind):
    """Returns the name of a type in the safe functions."""
    return kind if kind in calls.TYPES else f"abi::{struct_name(kind)}"


def safe(parameter):
    """Returns the declaration of a parameter of a safe function."""
    front = {"const": "&", "mut": "&mut ", "": ""}[parameter.pointer]
    kind = qualified(parameter.kind)
    return f"{parameter.name}: {front}{f'[{kind}]' if parameter.slice else kind}"


def passed(parameter, outputs):
    """Returns the arguments that a safe function passes to the call for a parameter."""
    name = parameter.name
    if parameter.slice:
        return f"{name}.{'as_mut_ptr' if parameter.pointer == 'mut' else 'as_ptr'}(), {name}.len()"
    return f"&mut {name}" if parameter in outputs else name


def call_lines(call):
    """Yields a safe function: what the archive's writes to the last pointers is returned before its
    own result, unless that is a part of it."""
    outputs, result = call.outputs(), call.returns()
    taken = [safe(param) for param in call.parameters if param not in outputs]
    kinds = [qualified(param.kind) for param in outputs] + [result] * bool(result)
    shown = f" -> {kinds[0] if len(kinds) == 1 else '(' + ', '.join(kinds) + ')'}" if kinds else ""
    yield from ("", "#[inline]")
    yield from listed(f"pub(crate) fn {call.called().removeprefix('rtr_')}(", taken, f"){shown} {{")
    for param in outputs:
        start = {"bool": "false"}.get(param.kind, "0") if param.kind in calls.TYPES \
            else f"{qualified(param.kind)}::default()"
        yield f"    let mut {param.name} = {start};"
    end = ") }" + (";" if outputs or not result else "")
    front = f"{'let result = ' if outputs and result else ''}unsafe {{ abi::{call.name}("
    yield "    // SAFETY: as at the head of this file."
    yield from listed(front, [passed(param, outputs) for param in call.parameters], end, "    ")
    if outputs:
        names = [param.name for param in outputs] + ["result"] * bool(result)
        yield f"    {names[0] if len(names) == 1 else '(' + ', '.join(names) + ')'}"
    yield "}"


def safe_calls():
    """Returns the file of safe functions."""
    return CALLS_FRONT + "".join(f"{line}\n" for call in calls.calls() for line in call_lines(call))


calls.write({HERE / "src" / "abi.rs": abi(), HERE / "src" / "calls.rs": safe_calls()},
            "bindings/rust/generate.py")
