#!/usr/bin/env python3
"""Writes rtr_table.js and rtr_table.d.ts: the declarations of crates/rtr_c.

usage: generate.py [--check]    with --check it writes nothing, and exits with status 1 if the files
                             are outdated
"""
import json
import pathlib
import re
import sys
import textwrap

HERE = pathlib.Path(__file__).resolve().parent
sys.dont_write_bytecode = True
sys.path.insert(0, str(HERE.parent))

import calls

# The enums, with their names in JavaScript and the prefix that is cut off their members.
ENUMS = {"rtr_status": ("Status", "RTR_"), "rtr_prefix_rule": ("PrefixRule", "RTR_"),
         "rtr_kind": ("Kind", "RTR_"), "rtr_code": ("ErrorCode", "RTR_CODE_"),
         "rtr_order": ("SerialOrder", "RTR_SERIAL_"),
         "rtr_named": ("Named", "RTR_NAMED_"), "rtr_side": ("Side", "RTR_"),
         "rtr_validity": ("Validity", "RTR_"), "rtr_mismatch": ("Mismatch", "RTR_"),
         "rtr_covers": ("Covers", "RTR_COVERS_"),
         "rtr_rule": ("Rule", "RTR_RULE_"), "rtr_phase": ("Phase", "RTR_PHASE_"),
         "rtr_action_kind": ("ActionKind", "RTR_"),
         "rtr_cause": ("Cause", "RTR_CAUSE_"), "rtr_link_status": ("LinkStatus", "RTR_LINK_"),
         "rtr_todo_kind": ("TodoKind", "RTR_TODO_"),
         "rtr_client_failure": ("ClientFailure", "RTR_CLIENT_"),
         "rtr_group_shown": ("GroupShown", "RTR_GROUP_"),
         "rtr_group_status": ("GroupStatus", "RTR_GROUP_"),
         "rtr_serving_kind": ("ServingKind", "RTR_SERVE_"), "rtr_reason": ("Reason", "RTR_REASON_"),
         "rtr_entry": ("Entry", "RTR_ENTRY_"), "rtr_step": ("Step", "RTR_STEP_"),
         "rtr_cut": ("Cut", "RTR_CUT_"),
         "rtr_stores_status": ("StoresStatus", "RTR_STORES_"), "rtr_room": ("Room", "RTR_ROOM_"),
         "rtr_time_rule": ("TimeRule", "RTR_TIME_RULE_")}

# The structs that programs see as objects, with their descriptions and the fields of an enum type.
OBJECTS = {
    "rtr_settings": ("Settings", "The settings of a router: rtr.h describes each. Times are in "
                     "milliseconds.", {}),
    "rtr_action": ("Action", "What the program has to do: rtr.h describes each field.",
                   {"kind": "ActionKind", "cause": "Cause", "status": "Status"}),
    "rtr_known": ("Known", "The session, serial number and version of data, and their times "
                  "in seconds.", {}),
    "rtr_router": ("RouterState", "The fields of a struct rtr_router.", {}),
    "rtr_todo": ("TodoFields", "What the program has to do: rtr.h describes each field.",
                 {"kind": "TodoKind", "cause": "Cause", "status": "Status"}),
    "rtr_group_settings": ("GroupSettings", "The settings of a group: rtr.h describes each. Times "
                           "are in milliseconds.", {}),
    "rtr_cache_settings": ("CacheSettings", "The settings of a cache: rtr.h describes each. Times "
                           "are in milliseconds.", {}),
    "rtr_server_settings": ("ServerSettings", "The limits of a server: rtr.h describes each. Times "
                            "are in milliseconds.", {})}

# The texts that programs see, by the enum of their numbers.
TEXTS = ("rtr_status", "rtr_kind", "rtr_cause", "rtr_reason", "rtr_code")

FRONT = "// What the crate rtr_c declares. `generate` made this file of it: don't edit it.\n"


def camel(name):
    """Converts a name of C to camel case."""
    return re.sub(r"_(\w)", lambda found: found[1].upper(), name)


def documented(comment, indent):
    """Yields the lines of a comment."""
    lines = textwrap.wrap(comment, 93 - len(indent))
    if len(lines) == 1:
        yield f"{indent}/** {comment} */"
    elif lines:
        yield f"{indent}/** {lines[0]}"
        yield from (f"{indent} * {line}" for line in lines[1:])
        yield f"{indent} */"


def enum_lines():
    """Yields the enums, as frozen objects."""
    for enum in calls.enums():
        if enum.name not in ENUMS:
            continue
        js_name, prefix = ENUMS[enum.name]
        yield f"\nexport const {js_name} = Object.freeze({{"
        yield from (f"    {member[len(prefix):]}: {number}," for member, number, _ in enum.members)
        yield "});"


def enum_types():
    """Yields the types of the enums."""
    for enum in calls.enums():
        if enum.name not in ENUMS:
            continue
        js_name, prefix = ENUMS[enum.name]
        yield ""
        yield from documented(enum.about, "")
        yield f"export const {js_name}: {{"
        for member, number, comment in enum.members:
            yield from documented(calls.sentence(comment), "    ")
            yield f"    readonly {member[len(prefix):]}: {number};"
        yield "};"
        yield f"export type {js_name} = (typeof {js_name})[keyof typeof {js_name}];"


def object_types():
    """Yields the types of the structs that programs see."""
    for struct in calls.structs():
        if struct.name not in OBJECTS:
            continue
        js_name, about, enums = OBJECTS[struct.name]
        yield ""
        yield from documented(about, "")
        yield f"export interface {js_name} {{"
        for field in struct.fields:
            shown = enums.get(field.name) or ("boolean" if field.kind == "bool" else "number")
            shown = OBJECTS[field.kind][0] if field.kind not in calls.TYPES else shown
            yield from documented(field.about, "    ")
            yield f"    {camel(field.name)}: {shown};"
        yield "}"


def in_js(kind):
    """Returns a type as the code of the tables calls it: a number's as C does, or a struct."""
    return calls.TYPES[kind][0].removesuffix("_t") if kind in calls.TYPES else camel(kind[4:])


def struct_lines():
    """Yields the structs: sizes, and the name, offset, type and array length of each field."""
    yield "\nexport const STRUCTS = Object.freeze({"
    for struct in calls.structs():
        yield f"    {camel(struct.name[4:])}: {{ size: {struct.size}, fields: ["
        for field in struct.fields:
            row = f", {field.many}" if field.many else ""
            yield f'        ["{camel(field.name)}", {field.offset}, "{in_js(field.kind)}"{row}],'
        yield "    ] },"
    yield "});"


def taken(parameter):
    """Yields the types of a parameter: a star is a pointer, and a slice has a length, too."""
    yield "*" if parameter.pointer else in_js(parameter.kind)
    if parameter.slice:
        yield "size"


def function_lines():
    """Yields the functions: the types of the result and the arguments."""
    yield "\nexport const FUNCTIONS = Object.freeze({"
    for call in calls.calls():
        kinds = [in_js(call.result) if call.result else "void"]
        kinds += [kind for param in call.parameters for kind in taken(param)]
        yield f"    {call.name}: [{', '.join(map(json.dumps, kinds))}],"
    yield "});"


def text_lines():
    """Yields the functions that return the text of a number."""
    for enum in TEXTS:
        listed, other = calls.texts(enum)
        name = camel(f"{enum.removeprefix('rtr_')}_text")
        yield f"\nconst {name}s = ["
        yield from (f"    {json.dumps(label)}," for label in listed)
        yield "];\n"
        yield f"export function {name}(number) {{"
        other = "`error code ${number}`" if enum == "rtr_code" else json.dumps(other)
        yield f"    return {name}s[number] ?? {other};"
        yield "}"


def files():
    """Returns the content of both files."""
    version, number = calls.version()
    front = [FRONT, f'export const VERSION = "{version}";',
             f"export const VERSION_NUMBER = {number};"]
    front += [f"export const {name[4:]} = {value};" for name, value, _ in calls.constants()]
    front += [f"export const {name} = {json.dumps(text)};" for name, text in calls.failures()]
    types = [FRONT, f'export const VERSION: "{version}";',
             f"export const VERSION_NUMBER: {number};"]
    declarations = ["", *(f"export function {camel(enum.removeprefix('rtr_') + '_text')}"
                          "(number: number): string;" for enum in TEXTS)]
    code = [*front, *enum_lines(), *struct_lines(), *function_lines(), *text_lines()]
    return {HERE / "rtr_table.js": "\n".join(code) + "\n",
            HERE / "rtr_table.d.ts": "\n".join([*types, *enum_types(), *object_types(),
                                                    *declarations]) + "\n"}


calls.write(files(), "bindings/js/generate.py")
