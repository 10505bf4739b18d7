"""Reads the types, traits and functions of src/, and the names that a crate makes public."""
import re
from dataclasses import dataclass, field
from functools import cache

from sources import CRATES, ONLY_PROOF, Function, Type, WORD, add_imports, imports_of, own_crates, words_of

ITEM = re.compile(r"(?P<public>pub(?P<within>\([^)]*\))? )?(?:const (?=fn))?(?P<kind>fn|struct|enum|trait|impl|ghost|use|mod|const|static|type)\b")


def blanked(text):
    """The text with comments, attributes and texts in quotes made blank."""
    def blank(found):
        return re.sub(r"[^\n]", " ", found.group(0))
    text = re.sub(r'//[^\n]*|b?"(?:\\.|[^"\\])*"|b?\'(?:\\[^\'\n]+|[^\\\'\n])\'', blank, text, flags=re.S)
    return re.sub(r"#!?\[(?:[^\[\]]|\[[^\]]*\])*\]", blank, text)


def closing(text, at):
    """Where the brace, bracket or parenthesis that opens here closes."""
    depth = 0
    for place in range(at, len(text)):
        if text[place] in "{([":
            depth += 1
        elif text[place] in "})]":
            depth -= 1
            if depth == 0:
                return place
    raise ValueError("an opened brace isn't closed")


def use_tree(text, path=()):
    """The paths that a `use` names, each with the name that it has here."""
    text = text.strip()
    if not text:
        return
    head, brace, inner = text.partition("{")
    if brace:
        path = path + tuple(it for it in head.strip().split("::") if it)
        for part in split_outside(inner[:inner.rindex("}")]):
            yield from use_tree(part, path)
        return
    name, _, alias = text.partition(" as ")
    path = path + tuple(it.strip() for it in name.split("::") if it.strip())
    if path:
        yield path, (alias.strip() or path[-1])


def split_outside(text):
    """The parts between the commas that stand in no braces."""
    depth, part = 0, ""
    for sign in text:
        depth += (sign in "{([") - (sign in "})]")
        if sign == "," and depth == 0:
            yield part
            part = ""
        else:
            part += sign
    yield part


@dataclass
class Block:
    """A type, a trait or an impl with its contents: its ghost items, its fields, its functions."""
    kind: str
    name: str
    of: str
    is_public: bool
    text: str
    ghosts: dict = field(default_factory=dict)
    names: dict = field(default_factory=dict)
    wholes: dict = field(default_factory=dict)
    functions: list = field(default_factory=list)


@dataclass
class Module:
    crate: str
    name: str
    names: dict = field(default_factory=dict)
    wholes: dict = field(default_factory=dict)
    uses: dict = field(default_factory=dict)
    exports: dict = field(default_factory=dict)
    blocks: list = field(default_factory=list)
    functions: list = field(default_factory=list)
    consts: set = field(default_factory=set)


@dataclass
class Signature:
    name: str
    is_public: bool
    takes: str
    text: str
    clauses: str
    body: str


def read_function(text, at, is_public):
    """The function whose `fn` stands here, and where it ends."""
    name = re.compile(r"fn (\w+)").match(text, at).group(1)
    opened = text.index("(", at)
    closed = closing(text, opened)
    place, clauses, end = closed + 1, "", closed + 1
    head_end = None
    while True:
        found = re.compile(r"\b(?:requires|ensures|decreases)\b(?:\s+\w+)?\s*(?=\{)|[{;(\[]").search(text, place)
        if found.group(0) in ("(", "["):
            place = closing(text, found.start()) + 1
            continue
        head_end = found.start() if head_end is None else head_end
        if found.group(0) == ";":
            body, end = ";", found.end()
            break
        brace = text.index("{", found.start())
        closed_brace = closing(text, brace)
        if found.group(0) == "{":
            body, end = text[brace + 1:closed_brace], closed_brace + 1
            break
        clauses += text[brace + 1:closed_brace] + "\n"
        place = closed_brace + 1
    return Signature(name, is_public, text[opened + 1:closed], text[at + 3 + len(name):head_end], clauses, body), end


def ghost_items(text):
    """The ghost items of a block by name, without those that are proofs."""
    found = {}
    for item in re.finditer(r"\bghost (\w+)\s*[=:]\s*(?=\{)", text):
        brace = text.index("{", item.end() - 1)
        if item.group(1) not in ONLY_PROOF:
            found[item.group(1)] = text[brace + 1:closing(text, brace)]
    return found


def without_ghosts(text):
    """The fields of a type, without the invariants that it keeps."""
    while found := re.search(r"\bghost \w+\s*:\s*(?=\{)", text):
        end = closing(text, text.index("{", found.end() - 1))
        by = re.compile(r"\s*by\s*(?=\{)").match(text, end + 1)
        end = closing(text, text.index("{", by.end() - 1)) if by else end
        text = text[:found.start()] + text[end + 1:]
    return text


def read_block(kind, text, at, is_public):
    """The type, trait or impl that stands here, and where it ends."""
    brace = re.compile(r"[{;]").search(text, at)
    after = brace.start()
    if kind == "struct" and "(" in text[at:after]:
        after = text.index(";", at)
        return Block(kind, re.compile(r"struct (\w+)").match(text, at).group(1), "", is_public, text[at:after]), after + 1
    head = text[at:after]
    if brace.group(0) == ";":
        return Block(kind, re.compile(r"\w+ (\w+)").match(text, at).group(1), "", is_public, ""), after + 1
    end = closing(text, after)
    inner = text[after + 1:end]
    if kind == "impl":
        head = re.sub(r"^impl\s*(<(?:[^<>]|<[^<>]*>)*>)?\s*", "", head)
        of, _, name = head.rpartition(" for ")
        block = Block(kind, re.match(r"\s*&?(?:'\w+ )?(\w+)", name).group(1), of.strip(), is_public, inner)
    else:
        block = Block(kind, re.compile(r"\w+ (\w+)").match(text, at).group(1), "", is_public, inner)
    add_imports(block.names, block.wholes, imports_of(inner, r"ghost use "))
    block.ghosts = ghost_items(inner)
    if kind in ("impl", "trait"):
        block.functions = [it for it, _ in functions_in(inner)]
    else:
        block.text = without_ghosts(inner)
    return block, end + 1


def functions_in(text):
    place = 0
    while found := re.compile(r"(pub(\([^)]*\))? )?(?:const )?\bfn \w+").search(text, place):
        at = text.index("fn ", found.start())
        signature, place = read_function(text, at, bool(found.group(1)) and not found.group(2))
        yield signature, at


def read_module(crate, name, text):
    text = blanked(text)
    module = Module(crate, name)
    add_imports(module.names, module.wholes, imports_of("\n".join(re.findall(r"^ghost use [^;]*;", text, flags=re.M)), r"ghost use "))
    place = 0
    while found := ITEM.search(text, place):
        at, kind = found.start("kind"), found.group("kind")
        is_public = bool(found.group("public")) and not found.group("within")
        if kind == "fn":
            signature, place = read_function(text, at, is_public)
            module.functions.append(signature)
        elif kind in ("struct", "enum", "trait", "impl"):
            block, place = read_block(kind, text, at, is_public)
            module.blocks.append(block)
        elif kind == "ghost":
            place = text.index(";", at) + 1
        else:
            place = end_of_plain(text, at)
            if kind == "use":
                for path, here in use_tree(text[at + 4:place - 1]):
                    (module.exports if is_public else module.uses)[here] = path
            elif kind in ("const", "static"):
                module.consts.add(re.compile(r"\w+ (\w+)").match(text, at).group(1))
    return module


def end_of_plain(text, at):
    """Past the semicolon that ends an item here."""
    place = at
    while text[place] != ";":
        place = closing(text, place) + 1 if text[place] in "{([" else place + 1
    return place + 1


@cache
def modules():
    found = {}
    for crate in own_crates():
        for path in sorted((CRATES / crate / "src").rglob("*.rt")):
            name = ".".join(path.relative_to(CRATES / crate / "src").with_suffix("").parts)
            found[crate, name] = read_module(crate, name, path.read_text(encoding="utf-8"))
    return found


def has_type(crate, module, name):
    found = modules().get((crate, module))
    return found is not None and any(it.kind != "impl" and it.name == name for it in found.blocks)


@cache
def found_by(crate, module, path):
    """The type that a path of a `use` names, seen from a module; None where it is another library's, or no type."""
    if path[0] == "crate":
        module, path = "lib", path[1:]
    elif path[0] == "super":
        module, path = module.rpartition(".")[0] or "lib", path[1:]
    elif path[0] == "self":
        path = path[1:]
    elif path[0] in own_crates():
        crate, module, path = path[0], "lib", path[1:]
    elif (crate, below(module, path[0])) not in modules():
        return None
    while path:
        if len(path) == 1:
            return at_module(crate, module, path[0])
        if (crate, below(module, path[0])) not in modules():
            return None
        module, path = below(module, path[0]), path[1:]
    return None


def below(module, name):
    return name if module == "lib" else f"{module}.{name}"


def at_module(crate, module, name):
    """The type with this name of a module, also where the module names it from elsewhere."""
    if has_type(crate, module, name):
        return Type(crate, module, name)
    here = modules().get((crate, module))
    if here is None:
        return None
    path = here.exports.get(name) or here.uses.get(name)
    return found_by(crate, module, path) if path else None


@cache
def types_of(crate, module):
    """The types that a module can name, by the name that it has for each."""
    here = modules()[crate, module]
    found = {name: found_by(crate, module, path) for name, path in {**here.uses, **here.exports}.items()}
    found.update({it.name: Type(crate, module, it.name) for it in here.blocks if it.kind != "impl"})
    return {name: it for name, it in found.items() if it}


def types_in(text, crate, module):
    known = types_of(crate, module)
    return {known[it] for it in WORD.findall(text.replace("::", " ")) if it in known}


@cache
def exported(crate):
    """The names that a crate makes public, as pairs of a module and a name."""
    found, front = set(), [("lib", name) for name in modules()[crate, "lib"].exports] if (crate, "lib") in modules() else []
    lib = modules().get((crate, "lib"))
    if lib:
        found.update(("lib", it.name) for it in [*lib.functions, *lib.blocks] if it.is_public)
    while front:
        module, name = front.pop()
        path = modules()[crate, module].exports[name]
        path = path[1:] if path[0] in ("crate", "self") else path
        target = module
        for part in path[:-1]:
            target = below(target, part)
        if (crate, target) not in modules():
            continue
        if path[-1] in modules()[crate, target].exports:
            front.append((target, path[-1]))
        else:
            found.add((target, path[-1]))
    return found


def is_public_type(it):
    return (it.module, it.name) in exported(it.crate)


@dataclass
class Said:
    """The content of the sources of src/: of each type its value and the invariants that it keeps, and each function."""
    values: dict = field(default_factory=dict)
    kept: dict = field(default_factory=dict)
    functions: list = field(default_factory=list)


def words_in(text, here, block=None):
    names = {**here.names, **(block.names if block else {})}
    wholes = {**here.wholes, **(block.wholes if block else {})}
    return words_of(text, names, wholes, {}, types_of(here.crate, here.name))


def function_of(here, signature, block, owner, is_public):
    clauses = words_in(signature.clauses, here, block)
    types = types_in(signature.text, here.crate, here.name) | ({owner} if owner else set())
    is_law = not signature.takes.strip() and not signature.body.strip()
    name = owner.name if owner else None
    return Function(here.crate, here.name, name, signature.name, is_public, is_law, clauses, types)


def add_block(said, here, block):
    own = types_of(here.crate, here.name).get(block.name)
    if own is None:
        return
    value, kept = said.values.setdefault(own, set()), said.kept.setdefault(own, set())
    trait = types_of(here.crate, here.name).get(re.sub(r"[<(].*", "", block.of).split("::")[-1].strip())
    is_public = is_public_type(own) and (trait is None or is_public_type(trait))
    for name, text in block.ghosts.items():
        words = words_in(text, here, block)
        if block.kind == "trait" or block.of == "Model" and name in ("Value", "view"):
            value |= words
        elif is_public or block.kind != "impl":
            kept |= words
    if block.kind in ("struct", "enum"):
        value |= types_in(block.text, here.crate, here.name)
    for signature in block.functions:
        shown = is_public and (signature.is_public or block.kind == "trait" or bool(block.of))
        said.functions.append(function_of(here, signature, block, own, shown))


@cache
def said_by_sources():
    said = Said()
    for here in modules().values():
        for block in here.blocks:
            add_block(said, here, block)
        for signature in here.functions:
            is_public = signature.is_public and (here.name, signature.name) in exported(here.crate)
            said.functions.append(function_of(here, signature, None, None, is_public))
    drop_hidden_fields(said)
    return said


def drop_hidden_fields(said):
    """A type with a Value of its own is seen by that, and not by its fields."""
    for here in modules().values():
        for block in here.blocks:
            if block.of == "Model" and block.name in types_of(here.crate, here.name):
                own = types_of(here.crate, here.name)[block.name]
                said.values[own] = set().union(*(words_in(block.ghosts.get(it, ""), here, block) for it in ("Value", "view")))
