#!/usr/bin/env python3
"""Writes src/rtr_wire/_rtr.py: the structs, constants and prototypes of crates/rtr_c.

usage: generate.py [--check]    with --check it writes nothing, and exits with status 1 if the file
                             is outdated
"""
import pathlib
import struct
import sys
import textwrap

HERE = pathlib.Path(__file__).resolve().parent
sys.dont_write_bytecode = True
sys.path.insert(0, str(HERE.parent))

import calls

MODULE = HERE / "src" / "rtr_wire" / "_rtr.py"

# The types of Rattle: as types of ctypes, and as letters of the module struct.
SCALARS = {"u8": ("c_uint8", "B"), "u16": ("c_uint16", "H"), "u32": ("c_uint32", "I"),
           "u64": ("c_uint64", "Q"), "usize": ("c_size_t", "N"), "bool": ("c_bool", "?")}

# The enums that get a class, with its name and the prefix that is cut off its members.
ENUMS = {"rtr_status": ("Status", "RTR_"), "rtr_prefix_rule": ("PrefixRule", "RTR_"),
         "rtr_kind": ("Kind", "RTR_"), "rtr_code": ("ErrorCode", "RTR_CODE_"),
         "rtr_order": ("SerialOrder", "RTR_SERIAL_"),
         "rtr_named": ("Named", "RTR_NAMED_"), "rtr_side": ("Side", "RTR_"),
         "rtr_validity": ("Validity", "RTR_"), "rtr_mismatch": ("Mismatch", "RTR_"),
         "rtr_covers": ("Covers", "RTR_COVERS_"),
         "rtr_rule": ("Rule", "RTR_RULE_"), "rtr_phase": ("Phase", "RTR_PHASE_"),
         "rtr_action_kind": ("ActionKind", "RTR_"), "rtr_group_shown": ("GroupShown", "RTR_GROUP_"),
         "rtr_group_status": ("GroupStatus", "RTR_GROUP_"),
         "rtr_cause": ("Cause", "RTR_CAUSE_"), "rtr_serving_kind": ("ServingKind", "RTR_SERVE_"),
         "rtr_reason": ("Reason", "RTR_REASON_"), "rtr_entry": ("Entry", "RTR_ENTRY_"),
         "rtr_step": ("Step", "RTR_STEP_"), "rtr_cut": ("Cut", "RTR_CUT_"),
         "rtr_link_status": ("LinkStatus", "RTR_LINK_"), "rtr_todo_kind": ("TodoKind", "RTR_TODO_"),
         "rtr_client_failure": ("ClientFailure", "RTR_CLIENT_"),
         "rtr_stores_status": ("StoresStatus", "RTR_STORES_"), "rtr_room": ("Room", "RTR_ROOM_"),
         "rtr_time_rule": ("TimeRule", "RTR_TIME_RULE_")}

FRONT = '''"""What the crate rtr_c declares. `generate` made this file of it: don't edit it."""
from __future__ import annotations

import enum
from ctypes import (POINTER, Structure, c_bool, c_size_t, c_uint8, c_uint16, c_uint32, c_uint64,
                    c_void_p)
from typing import Any

'''


def in_ctypes(kind):
    """Returns a type of ctypes."""
    return SCALARS[kind][0] if kind in SCALARS else kind


def taken(parameter):
    """Yields the ctypes types of a parameter: that of a slice has a pointer and a length."""
    pointed = f"POINTER({parameter.kind})" if parameter.kind not in SCALARS else "c_void_p"
    yield pointed if parameter.pointer else in_ctypes(parameter.kind)
    if parameter.slice:
        yield "c_size_t"


def comment(about):
    """Yields the lines of a comment in a class."""
    yield from textwrap.wrap(calls.sentence(about), 95, initial_indent="    # ",
                             subsequent_indent="    # ")


def enum_lines(enum):
    """Yields the lines of the class of an enum."""
    class_name, prefix = ENUMS[enum.name]
    yield f"\nclass {class_name}(enum.IntEnum):"
    yield from docstring(enum.about or f"enum {enum.name} of rtr.h.")
    for member, number, about in enum.members:
        yield from comment(about)
        yield f"    {member[len(prefix):]} = {number}"
    yield ""


def docstring(about):
    """Returns the lines of a docstring."""
    lines = textwrap.wrap(about, 93)
    if len(lines) == 1 and len(lines[0]) < 90:
        return [f'    """{lines[0]}"""', ""]
    return [f'    """{lines[0]}', *(f"    {line}" for line in lines[1:]), '    """', ""]


def struct_lines(struct):
    """Yields the lines of the class of a struct."""
    yield f"\nclass {struct.name}(Structure):"
    for field in struct.fields:
        shown = "Any" if field.many else field.kind if field.kind not in SCALARS else \
            "bool" if field.kind == "bool" else "int"
        yield from comment(field.about)
        yield f"    {field.name}: {shown}"
    yield ""
    yield "    _fields_ = ["
    for field in struct.fields:
        many = f" * {field.many}" if field.many else ""
        yield f'        ("{field.name}", {in_ctypes(field.kind)}{many}),'
    yield "    ]"
    yield ""


def letters(fields):
    """Returns the format of a struct for the module struct: an array of bytes is one field, and "0"
    with the widest letter at the end pads to the struct's size in an array."""
    plain = [SCALARS[field.kind][1] for field in fields if not field.many]
    return "@" + "".join(f"{field.many}s" if field.many else SCALARS[field.kind][1]
                         for field in fields) + f"0{max(plain, key=struct.calcsize)}"


def text_lines(name, text):
    """Yields the lines of the constant of a text, which is split if it is long."""
    if len(name) + len(text) <= 92:
        yield f'{name} = "{text}"'
        return
    front, back = text[:text.rindex(" ", 0, 90) + 1], text[text.rindex(" ", 0, 90) + 1:]
    yield from (f'{name} = (', f'    "{front}"', f'    "{back}")')


def module():
    """Returns the content of the module."""
    version, number = calls.version()
    lines = [f'VERSION = "{version}"', f"VERSION_NUMBER = {number}"]
    lines += [f"{name[4:]} = {value}" for name, value, _ in calls.constants()]
    lines += [line for name, text in calls.failures() for line in text_lines(name, text)] + [""]
    for enum in calls.enums():
        lines += enum_lines(enum)
    for structure in calls.structs():
        lines += struct_lines(structure)
    lines += ["", "# The fields of these structs, for the module struct."]
    lines += [f'{structure.name[4:].upper()}_LETTERS = "{letters(structure.fields)}"'
              for structure in calls.structs()
              if structure.name in ("rtr_unit", "rtr_route")] + [""]
    lines += ["# What each function of the library returns, and what it takes.",
              "PROTOTYPES: dict[str, tuple[Any, list[Any]]] = {"]
    for call in calls.calls():
        result = SCALARS[call.result][0] if call.result else "None"
        kinds = ", ".join(kind for param in call.parameters for kind in taken(param))
        lines += textwrap.wrap(f'"{call.name}": ({result}, [{kinds}]),', 100,
                               initial_indent="    ", subsequent_indent="        ")
    return FRONT + "\n".join(lines + ["}"]) + "\n"


calls.write({MODULE: module()}, "bindings/python/generate.py")
