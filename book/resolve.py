"""The whole house: every file read, every name resolved, who cites whom."""

import os
import re

import antt
import house as sources
import rattle
from meanings import Constants, Kit, Local, Made, Module, Scope, Variants

HERE = os.path.dirname(os.path.abspath(__file__))


class House:
    """All crates, with what each name in them means."""

    def __init__(self):
        self.crates = sources.crates()
        self.files = {f.path: f for c in self.crates.values() for f in c.files}
        self.kit_crates = {"std"} | {n for c in self.crates.values() for n in c.needs if n not in self.crates}
        self.prelude = self.read_prelude()
        self.methods, self.field_index, self.tables = {}, {}, {}
        self.readers = []
        for file in self.files.values():
            reader = (rattle if file.language == "rt" else antt).Reader(self, file)
            reader.declare()
            self.readers.append(reader)
        for file in self.files.values():
            for decl in file.decls:
                if decl.kind == "field":
                    self.field_index.setdefault(decl.name, []).append(decl)
                elif decl.kind == "method":
                    self.methods.setdefault(decl.name, []).append(decl)
        for reader in self.readers:
            reader.resolve()
        self.cite()
        self.believe()

    def read_prelude(self):
        """The names that the language brings into every file, and the fields that begin with a dot."""
        scope, self.step_fields = Scope(), set()
        with open(os.path.join(HERE, "prelude.txt"), encoding="utf-8") as file:
            for name in (name for line in file for name in line.split("#")[0].split()):
                if name.startswith("."):
                    self.step_fields.add(name[1:])
                else:
                    scope.bind(name, Kit("Prim"))
        return scope

    # ---- modules

    def file_at(self, crate, folder, module):
        return self.files.get(f"crates/{crate}/{folder}/{module}.antt")

    def source_at(self, file, name):
        folder = os.path.dirname(file.path)
        return self.files.get(f"{folder}/{name}.rt") or self.files.get(f"{folder}/{name}/mod.rt")

    def source_module(self, crate, name):
        """The module of that name in a crate's source."""
        return self.files.get(f"crates/{crate.name}/src/{name}.rt")

    def module(self, words, file):
        """The module that a path names: a file of ours, what the kit makes from one, or a library of the kit's."""
        if not words:
            return None
        first = words[0]
        if first != "Rattle":
            return Kit(".".join(words)) if first in KIT else None
        name, rest = words[1] if len(words) > 1 else "", words[2:]
        crate = self.crates.get(name)
        if crate is None:
            return Kit(".".join(words)) if name in self.kit_crates and rest else None
        if not rest or rest[0] not in ("specs", "proofs"):
            return None
        found = self.files.get(f"crates/{name}/" + "/".join(rest) + ".antt")
        if found is not None:
            return Module(found)
        whole = self.files.get(f"crates/{name}/" + "/".join(rest[:-1]) + ".antt")
        if whole is not None:
            return next((d for d in whole.names.get(rest[-1], []) if d.kind == "data"), None)
        if "declared" in rest:
            if rest[-1] == "TheConstants":
                return Constants(crate)
            at = rest.index("declared") + 1
            while at < len(rest) and self.source_module(crate, rest[at]) is not None:
                at += 1
            decl = self.crate_type(crate, rest[at]) if at < len(rest) else None
            if decl is None:
                return None
            return Variants(decl) if rest[at + 1 :] == ["TheVariants"] else Made(decl, ".".join(words))
        for word in rest[1:]:
            decl = next(
                (d for d in self.crate_items(crate).get(word, []) if d.kind in ("function", "struct", "enum")), None
            )
            if decl is None:
                decl = next((d for d in self.methods.get(word, []) if d.file.crate is crate), None)
            if decl is None and word.startswith("+"):
                decl = next(iter(self.crate_items(crate).get(word[1:].split("+")[0], [])), None)
            if decl is None and "." not in word:
                decl = next((d for d in self.methods.get(word.split("-")[-1], []) if d.file.crate is crate), None)
            if decl is not None:
                return Made(decl, ".".join(words))
        return None

    def crate_items(self, crate):
        if not crate.items:
            for file in crate.files:
                if file.language == "rt":
                    for name, decls in file.names.items():
                        crate.items.setdefault(name, []).extend(decls)
        return crate.items

    def called(self, name, crate):
        """The function or method of that name that the code of a crate can call, where there is just one."""
        near = [crate, *(self.crates[n] for n in crate.below)]
        found = [d for c in near for d in self.crate_items(c).get(name, []) if d.kind == "function"]
        found += [d for d in self.methods.get(name, []) if d.file.crate in near]
        own = [d for d in found if d.file.crate is crate]
        found = own if len(own) == 1 else found
        return found[0] if len(found) == 1 else None

    def crate_type(self, crate, name):
        return next((d for d in self.crate_items(crate).get(name, []) if d.kind in ("struct", "enum")), None)

    def type_named(self, name, file):
        decl = self.crate_type(file.crate, name)
        if decl is None:
            for need in [file.crate.name, *file.crate.below]:
                decl = decl or self.crate_type(self.crates[need], name)
        return decl

    def member(self, module, name, file):
        """What a name means behind a module."""
        if isinstance(module, Kit):
            return Kit(module.path + "." + name)
        if isinstance(module, Constants):
            return next((d for d in self.crate_items(module.crate).get(name, []) if d.kind == "const"), None)
        if isinstance(module, Variants):
            return next((d for d in module.decl.fields if d.name == name), None)
        if isinstance(module, Made):
            if module.decl.kind in ("struct", "enum") and module.decl.name == name:
                return module.decl
            return Made(module.decl, module.path + "." + name)
        if isinstance(module, Module):
            return self.exported(module.file, name, set())
        fields = getattr(module, "fields", [])
        found = [d for d in fields if d.name == name]
        return found[0] if found else None

    def exported(self, file, name, seen):
        """A name of a file: its own, a module below it, or one that it passes on."""
        if name in file.names:
            plain = [d for d in file.names[name] if d.kind != "field"]
            if plain:
                return plain[0] if len(plain) == 1 else plain
        child = self.files.get(file.path[: -len(".antt")] + "/" + name + ".antt")
        if child is not None:
            return Module(child)
        if file.path in seen:
            return None
        seen.add(file.path)
        return self.passed_on(file).get(name)

    def passed_on(self, file):
        """The names that the `pub use` lines of a file pass on."""
        if file.path not in self.tables:
            table = self.tables[file.path] = {}
            reader = next(r for r in self.readers if r.file is file)
            for item in reader.items:
                if item.kind == "use" and any(t.text == "pub" for t in item.marks):
                    scope = Scope(self.prelude)
                    quiet, reader.mark = reader.mark, lambda *a: None
                    reader.use(item.toks, scope)
                    reader.mark = quiet
                    table.update(scope.names)
        return self.tables[file.path]

    def place(self, module):
        """Where the name of a module leads."""
        if isinstance(module, Module):
            return module.file
        if isinstance(module, (Made, Variants)):
            return module.decl
        if isinstance(module, Constants):
            return module.crate
        return module.path if isinstance(module, Kit) else module

    # ---- records

    def fields(self, name, crate, language=None):
        """The fields of that name that the crate can mean."""
        near = [d for d in self.field_index.get(name, []) if d.file.crate is crate or d.file.crate.name in crate.below]
        return [d for d in near if d.file.language == language] if language else near

    def record_with(self, names, crate, just=True):
        """The records that have just these fields, or these among others."""
        first = next(iter(names), None)
        found = [d.parent for d in self.fields(first, crate)] if first else []
        told = [(r, {f.name for f in r.fields}) for r in found]
        return [r for r, has in told if has == names or not just and has >= names]

    def struct_of(self, decl):
        return (
            decl
            if getattr(decl, "kind", "") in ("struct", "record", "enum", "variant")
            else self.named(decl)
            if getattr(decl, "kind", "") == "field"
            else None
        )

    def named(self, decl):
        """The record that a declaration's result, or a field, is."""
        head = getattr(decl, "head", "")
        if not head or not isinstance(head, str):
            return None
        if decl.file.language == "rt":
            return self.type_named(head, decl.file)
        reader = next((r for r in self.readers if r.file is decl.file), None)
        if reader is None or reader.scope is None:
            found = decl.file.names.get(head, [None])[0]
        else:
            found = reader.scope.find(head)
        return found if getattr(found, "kind", "") in ("record", "struct") else None

    def record_of(self, of):
        """The record that something is, where its type tells."""
        if isinstance(of, Local):
            return of.head
        return self.named(of) if getattr(of, "kind", "") in ("field", "definition", "law", "helper") else None

    def head(self, toks, scope):
        """The record that a type names, where it names one by its first word."""
        if not toks or toks[0].kind != "name" or any(t.text in ("→", "×", "≡", "⊎", "↔") for t in toks):
            return None
        found = scope.find(toks[0].text)
        return found if getattr(found, "kind", "") in ("record", "struct") else None

    def of_a_step(self, name, reader):
        """Whether a field is one of those that the kit gives each step of a function, in a file that speaks of such
        steps."""
        if name not in self.step_fields:
            return False
        return any(m[2] == "module" and getattr(m[3], "kind", "") == "function" for m in reader.file.marks)

    def meets_kit(self, reader):
        """Whether a file meets records of the kit's: it brings a module that the kit makes, or a library's."""
        if not hasattr(reader, "kit"):
            reader.kit = any(
                m[2] in ("made", "kit") or m[2] == "module" and not hasattr(m[3], "path") for m in reader.file.marks
            )
        return reader.kit

    # ---- who cites whom

    def cite(self):
        for file in self.files.values():
            file.marks.sort(key=lambda m: (m[0], -m[1]))
            tops = sorted(
                (d for d in file.decls if d.kind not in ("field", "constructor", "variant", "helper")),
                key=lambda d: d.line,
            )
            file.tops = tops
            at = 0
            for start, end, cls, meaning in file.marks:
                if cls not in ("link", "made"):
                    continue
                found = meaning if isinstance(meaning, list) else [meaning]
                if len(found) > 1:
                    continue
                while (
                    at + 1 < len(tops)
                    and getattr(tops[at + 1], "open", None) is not None
                    and tops[at + 1].start <= start
                    or at + 1 < len(tops)
                    and tops[at + 1].start <= start
                ):
                    at += 1
                by = tops[at] if tops and tops[at].start <= start else None
                for decl in found:
                    if by is not None and by is not decl and by is not decl.parent:
                        decl.cited.add(by)

    def believe(self):
        self.believed, self.count = sources.believed_names()
        for (path, name), lines in self.believed.items():
            file = self.files.get(path)
            for decl in file.names.get(name, []) if file else []:
                decl.believed = True
                for inner in decl.fields:
                    inner.believed = True

    @property
    def unresolved(self):
        return [(f.path, line, name) for f in self.files.values() for line, name in f.unresolved]


#: The libraries of the language, as the first word of a path.
KIT = set(
    "Prim mathlib native lib text borrow store carried mir types denote prog seplogic ghost sound contract base".split()
)
