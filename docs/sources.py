"""What the sources say of themselves: the crates and what each stands on, their public calls with signature, words and clauses, their definitions
with their words, and their edits. 'docs/made' prints it and 'docs/check' holds the pages to it."""

import collections
import pathlib
import re

TOP = pathlib.Path(__file__).resolve().parent.parent
CRATES = TOP / "crates"
EDITS = TOP / "edits"

# A name of Rattle's clauses and definitions: what stands between two of these is one.
NAME = r"[^\W\d](?:[\w'-]*[\w'])?"


def stands_on():
    """What each crate stands on, in the order of crates.txt."""
    lines = (line.partition("#")[0].partition(":") for line in (TOP / "crates.txt").read_text().splitlines())
    return {left.split()[0]: right.split() for left, _, right in lines if left.split()}


# The crates by what they are for, as ARCHITECTURE.md shows them.
GROUPS = {
    "The outside": "nb_port nb_system nb_link nb_net nb_wire",
    "Bytes and seals": "nb_units nb_seal nb_index nb_numbers nb_frame nb_body nb_ticket nb_epo nb_goods nb_endorse nb_msgs",
    "The house": "nb_entry nb_book nb_escrow nb_turns nb_journal nb_vault nb_standby nb_statement nb_turn nb_desk nb_session nb_server nb_batch",
    "The parties": "nb_price nb_groups nb_stall nb_merchant nb_wallet nb_asking nb_consumer nb_trade nb_buy nb_sell nb_judge",
    "The world": "nb_world nb_parties nb_packets nb_buyers nb_sellers nb_script nb_simulator nb_player nb_headline",
    "Programs": "nb_play nb_words nb_commands nb_answers nb_run nb_work nb_platform netbill nb_cases nb_lines layouts books trades deals worlds vaults runs houses bench bench_nodes",
}


# A first sentence that is longer is shown up to its first colon.
LONG = 110


def first_sentence(crate):
    """What a crate is: the first sentence of its head, or of a long one what it is about."""
    first = re.split(r"(?<=\.) ", head_of(root_of(crate))[0].replace("\n", " "))[0]
    return first if len(first) <= LONG else re.split(r"[:;] ", first)[0].rstrip(".") + "."


def layers():
    """The crates in their groups, as lines of a page: each with the first sentence of its head."""
    for group, names in GROUPS.items():
        yield from (f"### {group}", "", "| Crate | What it is |", "|---|---|")
        yield from (f"| {name} | {first_sentence(name)} |" for name in names.split() if name in stands_on())
        yield ""


def code_of(path):
    """The text of a source without its comments and, of Rattle, without its tests."""
    text = path.read_text()
    if path.suffix == ".rt":
        text = re.sub(r"#\[cfg\(test\)\]\s*mod tests \{.*\Z", "", text, flags=re.S)
        return re.sub(r"//[^\n]*", "", text)
    return re.sub(r"--[^\n]*", "", text)


def files_of(crate, folder, suffix):
    """The sources of a crate that are no tests, by their names."""
    for path in sorted((CRATES / crate / folder).rglob("*" + suffix)):
        if "tests" not in path.with_suffix("").name and "tests" not in path.parent.parts[-1:]:
            yield path


def root_of(crate):
    """The root file of a crate."""
    return next(path for path in (CRATES / crate / "src/lib.rt", CRATES / crate / "src/main.rt") if path.exists())


def in_order(crate):
    """The files of a crate's code in the order in which its root and its modules name them."""
    files = list(files_of(crate, "src", ".rt"))
    listed = [root_of(crate)]
    for path in listed:
        folder = path.parent if path == root_of(crate) else path.with_suffix("")
        for module in re.findall(r"^(?:pub(?:\([a-z]+\))? )?mod (\w+);", path.read_text(), re.M):
            listed += [other for other in files if other == folder / f"{module}.rt" and other not in listed]
    return listed + [path for path in files if path not in listed]


def head_of(path):
    """The text at the head of a file of code, paragraph by paragraph."""
    lines = re.match(r"(?://![^\n]*\n)*", path.read_text()).group(0).splitlines()
    text = "\n".join(line[3:].removeprefix(" ") for line in lines)
    return [part for part in text.split("\n\n") if part]


# ---- calls


Clause = collections.namedtuple("Clause", "kind name text words line")


class Call:
    """A function: the type or trait that it belongs to, the trait that it is a part of, whether it is public, its words, its signature, its clauses,
    and the file and line at which it stands. The name of a clause is '-' where it has none, and 'requires' of a condition."""

    def __init__(self, owner, trait, name, public, path, line, words):
        self.owner, self.trait, self.name, self.public, self.path, self.line, self.words = owner, trait, name, public, path, line, words
        self.signature, self.parts, self.module = "", [], None

    @property
    def clauses(self):
        return [part.name for part in self.parts]

    @property
    def title(self):
        owner = f"<{self.owner} as {self.trait}>" if self.trait else self.owner or self.module
        return f"{owner}::{self.name}" if owner else self.name

    @property
    def is_law(self):
        """Whether it is a law: it takes nothing, gives nothing, and promises something."""
        return bool(self.parts) and re.search(r"fn \w+(?:<.*>)?\(\)$", self.signature) is not None


BLOCK = re.compile(r"(pub(?:\([a-z]+\))? )?(?:impl(?:<.*?>)? (?:(?P<of>.+?)(?:<.*>)? for )?(?P<type>\w+)|trait (?P<trait>\w+))")
FUNCTION = re.compile(r"(?P<in> *)(?P<pub>pub )?(?:pub\([a-z]+\) )?(?:const )?fn (?P<name>\w+)")
CLAUSE = re.compile(r"\s*(?P<kind>(?:requires|ensures)\*?)(?: (?P<name>[a-z_]\w*))?\s*\{")
# What an impl of a trait of conversion promises, in the place of a clause.
GIVES = re.compile(r"    ghost (?P<name>\w*gives) = \{ (?P<text>.*) \};$")


def calls_of(path):
    """The functions of a source, in order."""
    text = re.sub(r"#\[cfg\(test\)\]\s*mod tests \{.*\Z", "", path.read_text(), flags=re.S)
    lines = text.split("\n")
    owner = kind = trait = None
    words, said, given, at = [], [], [], 0
    while at < len(lines):
        line = lines[at]
        at += 1
        block = None if line.startswith((" ", "/", "}")) else BLOCK.match(line)
        if line.startswith("}"):
            owner = trait = None
        elif block and "fn " not in line.split("(")[0]:
            owner, trait, given = block.group("type") or block.group("trait"), block.group("of"), []
            kind = "trait" if block.group("trait") and block.group(1) else "impl of a trait" if trait else "impl"
        function, gives = FUNCTION.match(line), GIVES.match(line)
        if gives:
            given.append(Clause("ensures", gives.group("name"), gives.group("text"), said, at))
        if function:
            inside = function.group("in") != ""
            public = bool(function.group("pub")) or (inside and owner is not None and kind == "trait")
            call = Call(owner if inside else None, trait if inside else None, function.group("name"), public, path, at, words)
            at = read_head(call, lines, at - 1)
            call.parts, given = call.parts + given, []
            yield call
        stripped = line.strip()
        words = words + [stripped[3:].removeprefix(" ")] if stripped.startswith("///") else words if stripped.startswith("#[") else []
        said = said + [stripped[2:].removeprefix(" ")] if stripped.startswith("// ") else []


def read_head(call, lines, at):
    """Reads the signature and the clauses of a call from its first line on, up to its body, and answers the line behind it."""
    signature, words = [], []
    while at < len(lines):
        line = lines[at]
        at += 1
        stripped = line.strip()
        clause = CLAUSE.match(line)
        if clause:
            first, text = at, line[clause.end():]
            while text.count("{") >= text.count("}") and at < len(lines):
                text += " " + lines[at].strip()
                at += 1
            is_last = text.rstrip().endswith(";")
            name = clause.group("name") or ("requires" if clause.group("kind").startswith("requires") else "-")
            call.parts.append(Clause(clause.group("kind"), name, " ".join(text.rstrip().rstrip(";").rstrip()[:-1].split()), words, first))
            words = []
            if is_last:
                break
        elif stripped.startswith("//"):
            words = words + [stripped.lstrip("/").removeprefix(" ")]
        elif stripped in ("{", "{}"):
            break
        else:
            signature.append(stripped)
            if stripped.endswith(("{", "{}", ";")):
                break
    call.signature = tidied(" ".join(signature).rstrip("{};").strip())
    return at


def tidied(signature):
    """A signature of several lines on one."""
    for away, put in (("( ", "("), (", )", ")"), ("< ", "<"), (", >", ">"), ("[ ", "["), (", ]", "]")):
        signature = signature.replace(away, put)
    return signature


def exported(crate):
    """What a crate lets out: the names that its root brings out, and the modules that are public."""
    root = CRATES / crate / "src" / "lib.rt"
    text = code_of(root) if root.exists() else ""
    brought = re.findall(r"pub use ([\w:]+(?:::\{[^}]*\})?);", text)
    return {name for path in brought for name in re.findall(r"\w+", re.sub(r"^[\w:]*::(?=\{|\w+$)", "", path))}, set(re.findall(r"pub mod (\w+)", text))


def calls_in(crate):
    """The functions of a crate; those that it does not let out are not public."""
    lets_out, open_modules = exported(crate)
    for path in in_order(crate):
        for call in calls_of(path):
            is_out = path.stem in open_modules or (call.owner or call.name) in lets_out
            call.public = call.public and is_out
            call.is_told = call.public or (call.trait is not None and call.parts != [] and is_out)
            call.module = path.stem if path.stem in open_modules else None
            yield call


# ---- types


class Type:
    """A public type or constant: the open module in which it stands, its name, its words, its declaration where it has anything to show, and what
    contracts see of it."""

    def __init__(self, module, name, words, text):
        self.module, self.name, self.words, self.text, self.seen = module, name, words, text, []


TYPE = re.compile(r"pub (struct|enum|trait|type|const) (\w+)")


def types_in(crate):
    """The public types of a crate and its constants, in the order of the source."""
    lets_out, open_modules = exported(crate)
    for path in in_order(crate):
        text = path.read_text()
        models = {name: block for name, block in re.findall(r"^impl(?:<[^\n]*?>)? Model for (\w+)(.*?)^\}", text, re.M | re.S)}
        words, lines = [], text.split("\n")
        for at, line in enumerate(lines):
            declared = TYPE.match(line)
            if declared and (path.stem in open_modules or declared.group(2) in lets_out):
                found = Type(path.stem if path.stem in open_modules else None, declared.group(2), words, declaration(lines, at, declared.group(1)))
                members = re.findall(r"ghost (view|invariant) = \{ (.*?) \};", models.get(found.name, ""), re.S)
                found.seen = [(what, " ".join(seen.split())) for what, seen in members]
                yield found
            words = words + [line[4:]] if line.startswith("/// ") else words if line.startswith(("#[", "    ", ")]", "///")) else []


def declaration(lines, at, kind):
    """What a declaration shows: its variants or its public fields with their words, what contracts see of a trait, a constant's value."""
    end = next((more for more in range(at, len(lines)) if lines[more].startswith("}") or lines[more].endswith(";") and not lines[more].startswith(" ")), at)
    shown = lines[at:end + 1]
    if kind == "trait":
        return [shown[0].rstrip("{ "), *members_of(shown[1:])]
    if kind == "struct" and not any(line.strip().startswith("pub ") for line in shown[1:]):
        return [shown[0].rstrip("{ ;")]
    return shown


def members_of(lines):
    """Of a trait what contracts see of it and the types that it names, with their words."""
    words = []
    for line in lines:
        if line.startswith("    ///"):
            words.append(line)
        elif re.match(r"    (ghost \w+:|type )", line):
            yield from [*words, line]
            words = []
        elif line.strip():
            words = []


# ---- definitions


class Definition:
    """A definition: its crate, its module, its name, its own words, its text, and the line at which it stands. One that has no words of its own shares
    those of the one before it."""

    def __init__(self, crate, module, name, words, text, line):
        self.crate, self.module, self.name, self.words, self.text, self.line = crate, module, name, words, text, line


ITEM = re.compile(
    r"^(?:(?:abbrev |unfoldable )*pub (?!use )(?:record |data )?|  (?:(?:abbrev |unfoldable )+pub |pub record |pub data ))(?P<name>[^\s:({]+)", re.M
)


def module_file(crate, module):
    """The file of a module of definitions."""
    return CRATES / crate / "specs" / f"{module}.antt"


def modules_of(crate):
    """The modules of a crate's definitions, in the order of specs/Lib.antt."""
    listed = CRATES / crate / "specs" / "Lib.antt"
    return re.findall(r"^pub mod (\w+)", listed.read_text(), re.M) if listed.exists() else []


def module_words(path):
    """The comment at the head of a module, before what it uses."""
    lines = path.read_text().split("\n")
    count = next((at for at, line in enumerate(lines) if not line.startswith("--")), len(lines))
    return [line[2:].removeprefix(" ") for line in lines[:count]]


def own_words(definition):
    """The words of a definition that do not stand at the head of its module."""
    return [] if definition.words == module_words(module_file(definition.crate, definition.module)) else definition.words


def definitions_in(crate):
    """The definitions of a crate, in the order of the source. The words of the only one of a module stand at the head of that."""
    for module in modules_of(crate):
        text = module_file(crate, module).read_text()
        head = module_words(module_file(crate, module))
        own, last = head if len(ITEM.findall(text)) == 1 else [], None
        for number, line in enumerate(text.split("\n")[len(head):], len(head) + 1):
            item, stripped = ITEM.match(line), line.strip()
            if stripped.startswith("-- ----"):
                own, last = [], None
            elif last is not None and line.startswith("  --"):
                last.text += "\n" + line
            elif re.match(r"(?:  )?--", line):
                own, last = (own if own is not head else []) + [stripped[2:].removeprefix(" ")], None
            elif item:
                last, own = Definition(crate, module, item.group("name"), own, stripped, number), []
                yield last
            elif line == "":
                last = None
            elif last is not None:
                last.text += "\n" + line
            elif not line.startswith((" ", "use ", "}", "infix")):
                # what is private takes its words with it
                own = own if own is head else []


# ---- who cites what


def uses_of(path):
    """What the names of a source stand for: of each name that it brings in from definitions the crate and the module, and of each other name
    of a module that module."""
    names, aliases = {}, {}
    text = path.read_text()
    for crate, module, list_of, alias in re.findall(r"use Rattle\.(\w+)\.specs\.(\w+)(?:\.\{([^}]*)\}| as (\w+))", text):
        for name in (list_of or "").split(","):
            name, _, other = name.strip().partition(" as ")
            names[other or name] = (crate, module, name)
        if alias:
            aliases[alias] = (crate, module)
    return names, aliases


def cited_in(text, names, aliases):
    """The definitions that a text names, by crate, module and name: not its comments, nor the fields of records."""
    text = re.sub(r"--[^\n]*", "", text)
    text = re.sub(rf"(?m)^\s*pub {NAME}(?: {NAME})* :", ":", text)
    text = re.sub(rf"([{{;]\s*){NAME} =", r"\1=", text)
    for before, alias, name in re.findall(rf"(\.?)(?<![\w'-])(?:({NAME})\.)?({NAME})", text):
        if alias in aliases:
            yield (*aliases[alias], name)
        elif not before and (alias or name) in names:
            yield names[alias or name]
    for name in names:
        if "◌" in name and name.strip("◌") in text.split():
            yield names[name]


# ---- edits


def edits_of(crate):
    """The edits of a crate, those of the gate and those beside it, each by its name and what its first line says."""
    for folder in (CRATES / crate / "must-fail", EDITS / crate):
        yield [(path.stem, path.read_text().split("\n")[0].removeprefix("# ")) for path in sorted(folder.glob("*.edit"))]
