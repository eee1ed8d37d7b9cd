"""Reads what crates/rtr_c exports into one model: its calls, its structs with the places of their
fields on 64-bit machines, the numbers that they use, and the texts of these numbers. `generate` of
each language writes its tables from it.

The order of rtr.h, which is a page that people read, is the order of the tables, and its comments
on numbers are theirs; fields have the comments of the crate."""
import dataclasses
import functools
import pathlib
import re
import sys

TOP = pathlib.Path(__file__).resolve().parents[1]
CRATES = TOP / "crates"
PAGE = TOP / "bindings" / "c" / "rtr.h"

# The types of Rattle that calls take: as C spells them, and their sizes in bytes.
TYPES = {"u8": ("uint8_t", 1), "bool": ("bool", 1), "u16": ("uint16_t", 2), "u32": ("uint32_t", 4),
         "u64": ("uint64_t", 8), "usize": ("size_t", 8)}

# A struct of another crate that a struct of rtr_c has in a field.
OTHER_STRUCTS = ("data_validation/src/tables.rt",)

# A call whose parameters are slices ends in one of these; the call of rtr.h over it doesn't.
ENDINGS = ("_nonnull", "_of")

# The laws that state the other numbers, with N for the number. A law may break its lines elsewhere.
LAWS = {
    "HIGHEST_VERSION": ("rtr_units/src/laws.rt", "LAST_VERSION ≡ N"),
    "HEADER_SIZE": ("rtr_units/src/laws.rt", "<ResetQuery as Unit>⟧.LENGTH ≡ N"),
    "SERIAL_SIZE": ("rtr_units/src/laws.rt", "<SerialQuery as Unit>⟧.LENGTH ≡ N"),
    "IPV4_SIZE": ("rtr_units/src/laws.rt", "<Ipv4Prefix as Unit>⟧.LENGTH ≡ N"),
    "IPV6_SIZE": ("rtr_units/src/laws.rt", "<Ipv6Prefix as Unit>⟧.LENGTH ≡ N"),
    "KEY_SIZE": ("rtr_payload/src/laws.rt",
                 "fixed_sizes() -> (usize, usize) ensures router_key { result.0 ≡ N }"),
    "ASPA_SIZE": ("rtr_payload/src/laws.rt",
                  "fixed_sizes() -> (usize, usize) ensures router_key { result.0 ≡ _ } "
                  "ensures aspa { result.1 ≡ N }"),
    "REPORT_SIZE": ("unit_any/src/laws.rt", "MIN_SIZE ≡ N"),
    "SHORTEST_END": ("rtr_units/src/laws.rt", "<EndOfDataV0 as Unit>⟧.LENGTH ≡ N"),
    "LONGEST_END": ("rtr_units/src/laws.rt", "<EndOfDataV1 as Unit>⟧.LENGTH ≡ N"),
    "SHORTEST_PAYLOAD": ("unit_any/specs/Lengths.antt", "aspa : t ≡ 11 → (N ≤ n)"),
    "LONGEST_UNIT": ("unit_any/src/laws.rt", "MAX_SIZE ≡ N"),
    "MOST_KEY_INFO": ("rtr_c/specs/WrittenUnits.antt", "nat_lt N (length info)"),
    "MOST_PROVIDER_BYTES": ("rtr_c/specs/WrittenUnits.antt", "nat_lt N (length providers)"),
    "MOST_REPORT_PARTS": ("rtr_c/specs/WrittenUnits.antt", "nat_lt N (length p + length t)"),
    "MOST_QUOTED": ("rtr_c/specs/Texts.antt", "map quoted_byte (take N text)"),
    "NAME_ROOM": ("rtr_c/src/laws.rt", "length (unit_name f) ≤ N"),
    "FINDING_ROOM": ("rtr_c/src/laws.rt", "length (told_line offset (numbered_finding f)) ≤ N"),
    "MOST_MEMBERS": ("rtr_c/specs/GroupsShown.antt", "if nat_lt N count"),
    "LAST_REPORT_LIMIT": ("rtr_c/src/closing.rt", "ensures limit { result.0 ≡ N }"),
    "LAST_REPORT_BYTES": ("rtr_c/src/closing.rt", "ensures bytes { result.1 ≡ N }"),
    **{f"{least}_{time.upper()}": ("session_router/specs/Times.antt", f"k.{time} {numbers})")
       for time in ("refresh", "retry", "expire")
       for least, numbers in (("USUAL", "N _ _"), ("LEAST", "_ N _"), ("MOST", "_ _ N"))}}

# The enums: the files and functions of rtr_c with their numbers. Of a file all constants count that
# have the type of a status, from the first of these names to the last.
ENUMS = {
    "rtr_status": [("answer.rt", "ACCEPTED", "REPORT_INSIDE")],
    "rtr_prefix_rule": [("answer.rt", "rule_number")],
    "rtr_kind": [("texts.rt", "kind")],
    "rtr_code": [("../../rtr_base/src/error_code.rt", "CORRUPT_DATA", "ORDERING_ERROR")],
    "rtr_order": [("numbers.rt", "rtr_serial_order")],
    "rtr_named": [("texts.rt", "STATUS", "TIME_RULE")],
    "rtr_side": [("data_answer.rt", "FIRST", "SECOND")],
    "rtr_validity": [("validation.rt", "validity_number"),
                     ("validation.rt", "NO_ROUTE", "UNCHECKED")],
    "rtr_covers": [("validation.rt", "COVERS_NONE", "COVERS_UNCHECKED")],
    "rtr_mismatch": [("validation.rt", "mismatch_number")],
    "rtr_rule": [("check.rt", "finding_to")],
    "rtr_phase": [("router.rt", "phase_to")],
    "rtr_action_kind": [("router_action.rt", "WAIT", "END")],
    "rtr_cause": [("router_action.rt", "cause_to")],
    "rtr_link_status": [("link_status.rt", "OK", "TOO_LONG")],
    "rtr_todo_kind": [("link_todo.rt", "NOTHING", "OUTPUT_ROOM")],
    "rtr_client_failure": [("failure.rt", "NONE", "MEMORY")],
    "rtr_group_shown": [("group.rt", "shown_to")],
    "rtr_group_status": [("group_telling.rt", "TOLD", "NO_MEMBER")],
    "rtr_serving_kind": [("serving.rt", "WAIT", "END")],
    "rtr_reason": [("serving.rt", "reason_to")],
    "rtr_stores_status": [("stores.rt", "OK", "SHORT_BUFFER"),
                          ("stores_answer.rt", "WAITS", "UNIT_VERSION")],
    "rtr_room": [("stores_answer.rt", "INDEX", "SECOND")],
    "rtr_entry": [("server_calls.rt", "entry_to")],
    "rtr_step": [("connection_calls.rt", "step_to")],
    "rtr_cut": [("connection_calls.rt", "NONE", "NONE"), ("connection_calls.rt", "cut_to")],
    "rtr_time_rule": [("times.rt", "rtr_times_rule")]}

# The prefixes of members after RTR_ in C.
PREFIXES = {"rtr_code": "CODE_", "rtr_order": "SERIAL_", "rtr_named": "NAMED_",
            "rtr_rule": "RULE_", "rtr_phase": "PHASE_", "rtr_cause": "CAUSE_",
            "rtr_link_status": "LINK_", "rtr_todo_kind": "TODO_",
            "rtr_client_failure": "CLIENT_", "rtr_group_shown": "GROUP_",
            "rtr_group_status": "GROUP_",
            "rtr_serving_kind": "SERVE_", "rtr_reason": "REASON_", "rtr_stores_status": "STORES_",
            "rtr_room": "ROOM_", "rtr_entry": "ENTRY_",
            "rtr_step": "STEP_", "rtr_cut": "CUT_", "rtr_time_rule": "TIME_RULE_"}

# Members that C calls by another name.
CALLED = {("rtr_status", "ACCEPTED"): "OK", ("rtr_order", "NONE"): "NO_ORDER",
          ("rtr_prefix_rule", "LEN_OVERFLOW"): "LENGTH_OVER",
          ("rtr_prefix_rule", "MAX_OVERFLOW"): "MAX_LENGTH_OVER",
          ("rtr_prefix_rule", "MAX_UNDERFLOW"): "MAX_LENGTH_UNDER",
          ("rtr_side", "FIRST"): "LEFT", ("rtr_side", "SECOND"): "RIGHT",
          ("rtr_mismatch", "NONE"): "MATCHES", ("rtr_mismatch", "TOO_LONG"): "LONGER"}

# The functions of the crates with the texts of an enum's members, and what C calls the function.
TEXTS = {"rtr_status": ["rtr_c/src/texts.rt:text_of_status", "rtr_units/src/peer_fault.rt:name"],
         "rtr_kind": ["rtr_c/src/texts.rt:kind"],
         "rtr_code": ["rtr_base/src/texts.rt:name"],
         "rtr_cause": ["session_router/src/event.rt:text"],
         "rtr_reason": ["session_cache/src/event.rt:text"],
         "rtr_time_rule": ["session_times/src/times.rt:text"]}

# Calls of rtr.h whose bodies are written by hand, since they return a pointer or keep one.
BY_HAND = ("rtr_check_data", "rtr_validate", "rtr_validate_many", "rtr_covering",
           "rtr_history_data")

# Structs of rtr.h that hold slices which calls of this name take, by the names of their parameters;
# and the place of these parameters, unless they stand where the first of the slices is.
BUFFERS = {"rtr_link_": ({"buffers": "rtr_link_buffers"}, 1),
           "rtr_stores_": ({"buffers": "rtr_stores_buffers", "work": "rtr_work"}, None),
           "rtr_history_since": ({"work": "rtr_work"}, None)}

# The start of the comment of a field that repeats the call's return value.
RESULT = "The result of the call"


@dataclasses.dataclass
class Parameter:
    """A parameter of a call: `pointer` is empty, "const" or "mut"; a slice has a length in C."""
    name: str
    kind: str
    pointer: str = ""
    slice: bool = False


@dataclasses.dataclass
class Call:
    """A function of the archive. `result` is empty if it returns nothing."""
    name: str
    about: str
    parameters: list
    result: str

    def called(self):
        """Returns the name of the call of rtr.h over it."""
        return functools.reduce(str.removesuffix, ENDINGS, self.name)

    def outputs(self):
        """Returns the last parameters that the call only writes to: plain pointers after the
        first parameter, which is the state that a call works on."""
        count = 0
        for parameter in reversed(self.parameters[1:]):
            if parameter.pointer != "mut" or parameter.slice:
                break
            count += 1
        return self.parameters[len(self.parameters) - count:]

    def returns(self):
        """Returns the type of the result, or nothing if an output has the same in its field
        `status`."""
        kinds = {output.kind for output in self.outputs()}
        return "" if any(field.name == "status" and field.about.startswith(RESULT)
                         for struct in structs() if struct.name in kinds
                         for field in struct.fields) else self.result


@dataclasses.dataclass
class Field:
    """A field of a struct: the length of an array is `many`, which else is 0."""
    name: str
    kind: str
    many: int
    offset: int
    about: str


@dataclasses.dataclass
class Struct:
    """A struct, by its name in C."""
    name: str
    about: str
    fields: list
    size: int


@dataclasses.dataclass
class Enum:
    """An enum, with the name, number and comment of each member."""
    name: str
    about: str
    members: list


def fail(what):
    """Ends the script."""
    sys.exit(f"bindings/calls.py: {what}")


@functools.cache
def read(path):
    """Returns the text of a file of the crates."""
    return (CRATES / path).resolve().read_text()


def capitals(name):
    """Returns a name of Rattle as C writes constants: OutOfPlace and out of place are
    OUT_OF_PLACE."""
    return re.sub(r"(?<=[a-z0-9])(?=[A-Z])|[ _]+", "_", name.replace("IPv", "IPV")).upper()


def struct_name(kind):
    """Returns the name in C of a struct of Rattle: RtrDataAnswer is rtr_data_answer."""
    return f"rtr_{capitals(kind.removeprefix('Rtr')).lower()}"


def kind_of(kind):
    """Returns a type of a field or a parameter: that of Rattle, or the name of a struct in C."""
    return kind if kind in TYPES else struct_name(kind)


def sources():
    """Returns the files of rtr_c in order."""
    return [f"rtr_c/src/{path.name}" for path in sorted((CRATES / "rtr_c" / "src").glob("*.rt"))]


def documented(lines):
    """Yields the lines of a file, each with the doc comment right before it on one line."""
    comment = []
    for line in lines:
        words = line.strip()
        if words.startswith("///"):
            comment.append(words[3:].strip())
        elif not words.startswith("#["):
            yield words, " ".join(comment)
            comment = []


# ---- calls

CALL = re.compile(r'((?:^///.*\n)*)#\[unsafe\(no_mangle\)\]\n(?:#\[.*\n)*'
                  r'pub extern "C" fn (\w+)\(([^)]*)\)(?: -> (\w+))?', re.MULTILINE)
PARAMETER = re.compile(r"(\w+): (&)?(mut )?(\[)?(\w+)\]?$")


@functools.cache
def calls():
    """Returns the calls in the order of rtr.h."""
    found = {}
    for path in sources():
        text = read(path)
        for about, name, taken, result in CALL.findall(text):
            found[name] = Call(name, plain(about), [parameter(part) for part in taken.split(",")
                                                    if part.strip()], result)
        if len(CALL.findall(text)) != text.count('extern "C" fn'):
            fail(f"{path} has a call that isn't read")
    return in_order(found, "call", lambda name: found[name].called())


def parameter(text):
    """Returns a parameter by its declaration."""
    match = PARAMETER.match(text.strip())
    if not match:
        fail(f"no parameter that C can pass: {text.strip()}")
    name, pointer, mutable, many, kind = match.groups()
    return Parameter(name, kind_of(kind), pointer and ("mut" if mutable else "const") or "",
                     bool(many))


# ---- structs

STRUCT = re.compile(r"^#\[repr\(C\)\]\n(?:#\[.*\n)*pub struct (\w+) \{\n", re.MULTILINE)
FIELD = re.compile(r"(?:pub )?(\w+): (?:\[(\w+); (\d+)\]|(\w+)),$")


@functools.cache
def structs():
    """Returns the structs in the order of rtr.h."""
    declared = {}
    for path in [*sources(), *OTHER_STRUCTS]:
        text = read(path)
        proved = dict(re.findall(r"prove!\(size_of::<(\w+)>\(\) == (\d+)\)", text))
        for match in STRUCT.finditer(text):
            front = re.search(r"((?:^///.*\n)*)\Z", text[:match.start()], re.MULTILINE)[0]
            body = text[match.end():text.index("\n}", match.end())]
            declared[struct_name(match[1])] = (plain(front), body, int(proved.get(match[1], 0)))
    laid = {}
    for name in declared:
        lay_out(name, declared, laid)
    return in_order(laid, "struct", lambda name: name)


def lay_out(name, declared, laid):
    """Adds a struct to those with the offsets of their fields, after the structs inside it."""
    if name in laid:
        return
    about, body, proved = declared[name]
    fields, offset = [], 0
    for line, comment in documented(body.splitlines()):
        field, many_of, many, plain_kind = FIELD.match(line).groups()
        kind = kind_of(many_of or plain_kind)
        if kind not in TYPES:
            lay_out(kind, declared, laid)
        offset = -(-offset // aligned(kind, laid)) * aligned(kind, laid)
        fields.append(Field(field, kind, int(many or 0), offset, comment))
        offset += size_of(kind, laid) * int(many or 1)
    widest = max(aligned(field.kind, laid) for field in fields)
    laid[name] = Struct(name, about, fields, -(-offset // widest) * widest)
    if proved not in (0, laid[name].size):
        fail(f"{name} has {proved} bytes, but its fields take {laid[name].size}")


def size_of(kind, laid):
    """Returns the size of a type in bytes."""
    return TYPES[kind][1] if kind in TYPES else laid[kind].size


def aligned(kind, laid):
    """Returns the alignment of a type."""
    return TYPES[kind][1] if kind in TYPES else max(aligned(field.kind, laid)
                                                    for field in laid[kind].fields)


# ---- numbers and texts

def body_of(path, function):
    """Returns the body of a function: from its name to a brace as far to the left as it."""
    match = re.search(rf"^( *)(?:pub )?(?:\(crate\) )?(?:extern \"C\" )?fn {function}\b.*?^\1\}}",
                      read(path).replace("pub(crate)", "pub"), re.MULTILINE | re.DOTALL)
    return match[0] if match else fail(f"{path} has no function {function}")


def constants_of(path, first, last):
    """Returns the names and numbers of the constants of a file, from the first to the last."""
    found = re.findall(r"const (\w+): (?:u8|Self) = (?:\w+\()?(\d+)\)?;", read(path))
    names = [name for name, _ in found]
    return found[names.index(first):names.index(last, names.index(first)) + 1]


def arms_of(path, function):
    """Returns the names and numbers that the arms of a function's match have, on either side."""
    found = []
    for left, right in re.findall(r"^ +(.+?) => (.+),$", body_of(path, function), re.MULTILINE):
        if left.isdecimal():
            found.append((re.sub(r'Some\("(.*)"\)', r"\1", right), left))
        elif left != "_":
            inner = re.search(r"\(Some\((\w+::\w+)\)\)$", left)
            name = inner[1] if inner else \
                re.sub(r"\(.*", "", re.sub(r"^Some\((?:\w+::)?(.*)\)$", r"\1", left))
            number = re.search(r"\d+|[A-Z_]+$", right)[0]
            if not number.isdecimal():
                number = re.search(rf"const {number}: u8 = (\d+);", read(path))[1]
            found.append((name.split("::")[-1], number))
    return list(dict.fromkeys(found))


@functools.cache
def members(enum):
    """Returns the members of an enum by their names in C, each with its number."""
    found = {}
    for source, *names in ENUMS[enum]:
        path = f"rtr_c/src/{source}"
        for name, number in arms_of(path, *names) if len(names) == 1 \
                else constants_of(path, *names):
            name = capitals(name)
            found[f"RTR_{PREFIXES.get(enum, '')}{CALLED.get((enum, name), name)}"] = int(number)
    return found


@functools.cache
def texts(enum):
    """Returns the texts of an enum's members by their numbers, and the text for other numbers."""
    named = {}
    for source in TEXTS[enum]:
        for name, text in re.findall(r"^ +(?:\w+::)?(\w+)(?:\(_\))? => (?:Some\()?\"(.*?)\"",
                                     body_of(*source.split(":")), re.MULTILINE):
            name = capitals(name) if not name.isdecimal() else text.upper()
            named[CALLED.get((enum, name), name)] = text
    front = len(f"RTR_{PREFIXES.get(enum, '')}")
    numbered = {number: named[capitals(name[front:]).replace("_", " ") if enum == "rtr_kind"
                             else name[front:]]
                for name, number in members(enum).items() if name[front:] != "NONE"}
    return ([numbered.get(number) for number in range(max(numbered) + 1)],
            f"unknown {enum[4:].replace('_', ' ')}")


def number(name):
    """Returns a number that laws state."""
    path, law = LAWS[name]
    pattern = r"\s+".join(re.escape(word) for word in law.split())
    pattern = re.sub(r"\bN\b", r"(\\d+)", re.sub(r"\b_\b", r"\\d+", pattern))
    found = set(re.findall(pattern, read(path)))
    return int(found.pop()) if len(found) == 1 else fail(f"{path} states {name} {len(found)} times")


def version():
    """Returns the version of the archive: its text and its number."""
    packed = int(re.search(r"const WIRE_VERSION: u32 = (\d+);", read("rtr_c/src/numbers.rt"))[1])
    return f"{packed // 10000}.{packed // 100 % 100}.{packed % 100}", packed


# ---- rtr.h

def plain(comment):
    """Returns the words of a comment, on one line."""
    return " ".join(re.sub(r"^\s*(?:///|/?\*+/?)", "", line).replace("*/", "").strip()
                    for line in comment.splitlines()).strip()


def sentence(comment):
    """Returns a comment as a sentence, with a capital and a full stop."""
    words = comment.split()
    if not words:
        return comment
    front = comment[0] if "_" in words[0] else comment[0].upper()
    return f"{front}{comment[1:].removesuffix('.')}."


@functools.cache
def page():
    """Returns the text of rtr.h."""
    return PAGE.read_text()


# The declaration of a struct or a call in rtr.h; a new one is only its first line.
DECLARED = {"struct": r"^struct (\w+)(?: \{$|;$)",
            "call": r"^(?:(?:static inline )?(?:const )?\w+ \*?)?(rtr_\w+)(?:\(|;$)"}


def in_order(found, what, named):
    """Returns the found declarations as a list, in their order in rtr.h."""
    indices = {name: index for index, name in enumerate(re.findall(DECLARED[what], page(),
                                                                   re.MULTILINE))}
    for name in map(named, found):
        if name not in indices:
            declaration = f"struct {name};" if what == "struct" else f"{name};"
            fail(f"rtr.h lacks the {what} {name}: add its comment, and below it `{declaration}`")
    return sorted(found.values(), key=lambda declaration: indices[named(declaration.name)])


def buffers_of(call):
    """Returns the structs of buffers that a call of rtr.h takes, by the names of their parameters,
    each with the names of the fields that are passed; and the position of these parameters."""
    for front, (groups, position) in BUFFERS.items():
        if not call.name.startswith(front):
            continue
        names = [parameter.name for parameter in call.parameters]
        taken = {}
        for group, struct in groups.items():
            body = re.search(rf"^struct {struct} \{{(.*?)^\}};", page(),
                             re.MULTILINE | re.DOTALL)[1]
            fields = re.findall(r"(\w+)[,;]", re.sub(r"/\*.*?\*/", "", body, flags=re.DOTALL))
            found = [name for name in names if name in fields]
            if found:
                taken[group] = (struct, found)
        if taken:
            first = min(names.index(found[0]) for _, found in taken.values())
            return taken, first if position is None else position
    return {}, 0


def page_parameters(call):
    """Returns the parameters of a call of rtr.h: like those of the archive's function, but structs
    of buffers in the place of slices."""
    groups, position = buffers_of(call)
    owned = {name for _, found in groups.values() for name in found}
    taken = [parameter for parameter in call.parameters if parameter.name not in owned]
    before = sum(parameter.name not in owned for parameter in call.parameters[:position])
    taken[before:before] = [Parameter(group, struct, "const") for group, (struct, _) in
                            groups.items()]
    return taken


@functools.cache
def constants():
    """Returns the numbers that rtr.h defines: name, number and comment."""
    found = re.findall(r"^#define RTR_(\w+) (\d+)[ \t]*(/\*.*\*/)?$", page(), re.MULTILINE)
    found = [constant for constant in found if constant[0] != "WIRE_VERSION_NUMBER"]
    missing = LAWS.keys() - {name for name, _, _ in found}
    if missing:
        fail(f"rtr.h lacks RTR_{min(missing)}")
    # Sizes of buffers for texts aren't proved: tests in each language try them.
    return [(f"RTR_{name}", number(name) if name in LAWS else int(there), plain(comment))
            for name, there, comment in found]


@functools.cache
def failures():
    """Returns the texts of failures and warnings that no call returns: name and text. rtr.h is their
    table."""
    found = re.findall(r'^#define RTR_((?:FAILURE|WARNING)_\w+)((?:[ \\\n]+"[^"\n]*")+)$', page(),
                       re.MULTILINE)
    return [(name, "".join(re.findall(r'"(.*?)"', texts))) for name, texts in found]


@functools.cache
def enums():
    """Returns the enums in the order of rtr.h, with the comments of their members there."""
    found = []
    pattern = r"(/\*(?:(?!\*/).)*\*/\n)?^enum (\w+) \{\n(.*?)\n\};"
    for about, name, body in re.findall(pattern, page(), re.DOTALL | re.MULTILINE):
        comments = {member: plain(comment) for member, comment in re.findall(
            r"^    (RTR_\w+)(?: = \d+)?,?[ \t]*(/\*.*?\*/)?", body, re.MULTILINE | re.DOTALL)}
        unknown = comments.keys() - members(name).keys()
        if unknown:
            fail(f"rtr_c has no number for {min(unknown)}")
        listed = [(member, value, comments.get(member, ""))
                  for member, value in members(name).items()]
        found.append(Enum(name, plain(about), sorted(listed, key=lambda member: member[1])))
    if len(found) != len(ENUMS):
        fail("rtr.h lacks an enum of the crate")
    return found


def is_time(name):
    """Reports whether a number is a time of an end of data."""
    return name.endswith(("_REFRESH", "_RETRY", "_EXPIRE"))


def write(files, call):
    """Writes generated files, each a path and its text; or if the script was called with --check,
    exits with status 1 if one differs."""
    if sys.argv[1:] == ["--check"]:
        for path, text in files.items():
            if not path.exists() or path.read_text() != text:
                sys.exit(f"{path.name} isn't what crates/rtr_c says: call {call}")
    elif sys.argv[1:]:
        sys.exit(f"usage: {call} [--check]")
    else:
        for path, text in files.items():
            path.write_text(text)
