"""What the pages of this folder are made of: functions with their contracts, seeded bugs, and the
heads of modules of specifications."""
import pathlib
import re

TOP = pathlib.Path(__file__).resolve().parents[2]
CRATES = TOP / "crates"

FUNCTION = re.compile(r'( *)((?:pub(?:\(\w+\))? )?)(?:final |const |unsafe |extern "C" )*fn (\w+)')
CLAUSE = re.compile(r" +ensures\*? ?(\w*)")
NEED = re.compile(r" +requires ?(\w*)")
BLOCK = re.compile(r"(pub )?(impl|trait)\b(.*)")
NOTE = re.compile(r" +// ?(.*)")
DEFINED = re.compile(r"^(?:(?:abbrev|unfoldable|opaque|inline) +)?pub +"
                     r"(?:record |data )? *([^\s:({]+)", re.MULTILINE)
EDIT = re.compile(r"^file: (.*)\n((?:.|\n)*)")


def crates():
    """Yields the names of the crates, lowest first."""
    for line in (TOP / "crates.txt").read_text().splitlines():
        if line.strip():
            yield line.split(":")[0].split()[0]


def without_parameters(text):
    """Returns the text without what stands between angle brackets."""
    while (shorter := re.sub(r"<[^<>]*>", "", text)) != text:
        text = shorter
    return text


class Function:
    """A function with its words and its clauses: each a label and its text. Its kind is public or
    private; or it stands for a definition, or for the imports of a file, that a bug changes."""

    def __init__(self, name, kind, words, begins):
        self.name, self.kind, self.words, self.begins = name, kind, words, begins
        self.clauses = []
        self.notes = {}
        self.needs = []
        self.edits = []


def paragraphs(lines):
    """Returns the paragraphs of lines of a comment, without marks of lists."""
    return [" ".join(line.removeprefix("- ") for line in part.split("\n"))
            for part in "\n".join(lines).split("\n\n") if part]


def words_before(lines, index):
    """Returns the paragraphs of the comment with three strokes that stands right before this
    line."""
    start = index
    while start and lines[start - 1].strip().startswith(("///", "#[")):
        start -= 1
    words = [line.strip()[3:].strip() for line in lines[start:index]
             if line.strip().startswith("///")]
    return paragraphs(words)


def owner_of(line):
    """Returns the type and the trait that a block of functions is about, and whether all are
    public."""
    kind, subject = BLOCK.match(line).group(2, 3)
    subject = without_parameters(subject).split("{")[0].split(" where ")[0].strip()
    if kind == "trait":
        return subject.split(":")[0].strip(), line.startswith("pub ")
    of_trait, _, of_type = subject.rpartition(" for ")
    bare = of_type.split("::")[-1].removeprefix("&")
    return (f"{of_trait.split('::')[-1]} for {bare}" if of_trait else bare), bool(of_trait)


def head_end(lines, index, indent):
    """Returns the line after the head of the function that begins at this place."""
    if lines[index].rstrip().endswith(("{", "}", ";")):
        return index + 1
    end = index + 1
    while end < len(lines) and lines[end].strip():
        line = lines[end]
        here = len(line) - len(line.lstrip())
        if here <= indent and (not line.lstrip().startswith(")") or line.endswith("{")):
            break
        end += 1
    return end


def functions(path):
    """Yields the functions of a file that aren't of its tests, in their order."""
    lines = path.read_text(encoding="utf-8").splitlines()
    owner, all_public = "", False
    for index, line in enumerate(lines):
        if line.startswith(("#[cfg(test)]", "mod tests {")):
            return
        if BLOCK.match(line):
            owner, all_public = owner_of(line)
        elif line.startswith("}"):
            owner, all_public = "", False
        found = FUNCTION.match(line)
        if not found:
            continue
        public = found[2] == "pub " or all_public and found[2] == ""
        name = f"{owner}::{found[3]}" if owner else found[3]
        kind = "public" if public else "private"
        function = Function(name, kind, words_before(lines, index), index)
        note = []
        for head in lines[index + 1:head_end(lines, index, len(found[1]))]:
            if clause := CLAUSE.match(head):
                function.clauses.append([clause[1], head])
                if note:
                    function.notes[clause[1]] = " ".join(note)
            elif need := NEED.match(head):
                function.needs.append([need[1], head])
            elif function.clauses and not function.needs and not NOTE.match(head):
                function.clauses[-1][1] += head
            note = [*note, NOTE.match(head)[1]] if NOTE.match(head) else []
        yield function


def files(crate):
    """Returns the files of a crate's sources, in the order of their names."""
    return sorted((CRATES / crate / "src").rglob("*.rt"))


def edits(crate):
    """Yields for each seeded bug of a crate its name, its file, and the texts that it replaces."""
    for path in sorted((CRATES / crate).glob("*must-fail/*.edit"), key=lambda path: path.name):
        file, changes = EDIT.match(path.read_text(encoding="utf-8")).groups()
        olds = re.findall(r"^old: ?((?:.|\n)*?)\n(?=new:)", changes, re.MULTILINE)
        yield path.stem, CRATES / crate / file, olds


def definitions(path):
    """Yields the definitions of a module of specifications, as a bug may change them."""
    text = path.read_text(encoding="utf-8")
    for found in DEFINED.finditer(text):
        yield Function(found[1], "definition", [], text[:found.start()].count("\n"))


def functions_of(crate):
    """Returns the functions of a crate by their files, each with the seeded bugs that change it,
    and so the definitions that a bug changes."""
    found = {path: list(functions(path)) for path in files(crate)}
    for name, path, olds in edits(crate):
        text = path.read_text(encoding="utf-8")
        line = text[:text.index(olds[0].strip("\n"))].count("\n")
        if path not in found:
            found[path] = list(definitions(path))
        before = [function for function in found[path] if function.begins <= line]
        if not before:
            found[path].insert(0, Function("use", "imports", [], 0))
            before = found[path][:1]
        before[-1].edits.append(name)
    return found


def all_definitions():
    """Returns the names of what the specifications of all crates define."""
    return {found[1] for crate in crates() for path in (CRATES / crate / "specs").rglob("*.antt")
            if "declared" not in path.parts
            for found in DEFINED.finditer(path.read_text(encoding="utf-8"))}


def specifications(crate):
    """Yields the modules of a crate's specifications that contracts of public functions cite."""
    for path in sorted((CRATES / crate / "specs").rglob("*.antt")):
        if "declared" not in path.parts and path.stem != "Lib":
            if not path.stem.startswith("Private"):
                yield path


def head_of(path):
    """Returns the comment with which a module begins, as its paragraphs."""
    lines = []
    for line in path.read_text(encoding="utf-8").splitlines():
        if not line.startswith("--"):
            break
        lines.append(line[2:].strip())
    return paragraphs(lines)
