"""Terms of antt: every word of one is told by what binds it. Binders hold to the end of the brackets around them."""

from meanings import Constants, Kit, Local, Made, Module, Scope, Step, Variants
from words import RESERVED, SIGNS, bracket, numeral


def deeper(t):
    """How a token changes the depth of brackets."""
    return (t.text in ("(", "{")) - (t.text in (")", "}")) if t.kind == "mark" else 0


class Terms:
    """Walks terms. Whoever reads a file has `house`, `file`, `mark`, `refer` and `unknown`."""

    #: What is applied where the walk stands, None where that is not known, and to how many arguments.
    applied, arguments = None, 0

    def over(self):
        """An application has ended."""
        self.applied, self.arguments = None, 0

    def atom(self, meaning):
        """One more atom of an application: its head, or an argument."""
        if self.arguments == 0:
            self.applied = meaning
        self.arguments += 1

    def meaning(self, t, scope):
        """What a word means, None where it is bound nowhere; and whether it is a part of an operator."""
        found = scope.find(t.text)
        if found is None and t.text.startswith("«"):
            found = scope.find(t.text[1:-1])
        if found is None and t.text.strip("◌"):
            return scope.find_part(t.text.strip("◌")), True
        return found, False

    # ---- patterns

    def builds(self, meaning):
        """Whether a name in a pattern is a constructor."""
        if isinstance(meaning, list):
            return all(self.builds(m) for m in meaning)
        return isinstance(meaning, Kit) or getattr(meaning, "kind", "") in ("constructor", "variant")

    def pattern(self, toks, scope, of=None):
        """The left side of a clause, or a case's pattern: constructors are referred to, all else is bound. Where the
        function is known, an argument that is a name has the type that its signature says."""
        bound, i = [], 0
        while i < len(toks):
            t, before = toks[i], toks[i - 1].text if i else ""
            after = toks[i + 1] if i + 1 < len(toks) else None
            if t.kind != "name" or t.text in SIGNS:
                pass
            elif numeral(t.text):
                self.mark(t.start, t.end, "number")
            elif of is not None and (t.text == of.name or t.text in of.name.split("◌")) and not bound:
                self.mark(t.start, t.end, "link", of)
            elif t.text in RESERVED:
                self.mark(t.start, t.end, "word")
            elif after is not None and after.text == "." and after.start == t.end:
                i = self.path(toks, i, scope)
                continue
            elif before == "{" and after is not None and after.text == "=":
                self.mark(t.start, t.end, "label")
            else:
                meaning, _ = self.meaning(t, scope)
                named = before == "{" and after is not None and after.text == "}"
                if meaning is not None and self.builds(meaning) and not named:
                    self.refer(t, meaning)
                else:
                    bound.append(t.text)
                    self.mark(t.start, t.end, "local")
            i += 1
        types = self.types_of(toks, scope, of)
        goal = scope.find(of.goal) if of is not None and of.goal else None
        if bound and isinstance(goal, Made) and goal.decl.kind in ("function", "method"):
            types[bound[0]] = Step(goal.decl, "variables" if goal.path.endswith(".Given") else "whole")
        for name in bound:
            scope.bind(name, Local(types.get(name)))

    def types_of(self, toks, scope, of):
        """The records that the arguments of a clause are, by the signature of its function."""
        found, place, i = {}, 0, 1
        if of is None or not toks or toks[0].text != of.name:
            return found
        while i < len(toks) and place < len(of.takes):
            t = toks[i]
            if t.text == "{":
                i = bracket(toks, i) + 1
                continue
            if t.kind == "name":
                found[t.text] = self.house.head(of.takes[place], scope)
            else:
                i = bracket(toks, i)
            place, i = place + 1, i + 1
        return found

    # ---- names

    def path(self, toks, i, scope):
        """A name, and what stands tight behind its dots; answers the place behind it."""
        t = toks[i]
        meaning, operator = self.meaning(t, scope)
        words, j = [t], i + 1
        while j + 1 < len(toks) and toks[j].text == "." and toks[j].start == toks[j - 1].end:
            if toks[j + 1].kind != "name" or toks[j + 1].start != toks[j].end:
                break
            words.append(toks[j + 1])
            j += 2
        if meaning is None and len(words) > 1:
            for k in range(len(words), 0, -1):
                meaning = self.house.module([w.text for w in words[:k]], self.file)
                if meaning is not None:
                    self.mark(words[0].start, words[k - 1].end, "module", self.house.place(meaning))
                    words = [None] + words[k:]
                    break
        if meaning is None:
            self.unknown(t)
            return j
        if words[0] is not None:
            self.refer(t, meaning)
        for word in words[1:]:
            holds = isinstance(meaning, (Constants, Kit, Made, Module, Variants)) or getattr(meaning, "kind", "") in (
                "data",
                "enum",
            )
            if holds:
                meaning = self.house.member(meaning, word.text, self.file)
                if meaning is None:
                    self.unknown(word)
                    return j
                self.refer(word, meaning)
            else:
                meaning = self.field(word, meaning)
        if operator:
            self.over()
        else:
            self.atom(meaning)
        return j

    def field(self, t, of):
        """A field of something: the one that its type tells, else all that are so named."""
        if numeral(t.text):
            self.mark(t.start, t.end, "number")
            return None
        found = self.house.fields(t.text, self.file.crate)
        told = self.house.record_of(of)
        if isinstance(told, Step):
            return self.of_step(t, told)
        if told is not None:
            found = [d for d in found if d.parent is told] or found
        elif found and self.house.of_a_step(t.text, self):
            found = []
        if not found:
            if self.house.meets_kit(self):
                self.mark(t.start, t.end, "kit", "a field of a record of the kit's")
            else:
                self.unknown(t)
            return None
        self.mark(t.start, t.end, "link", found if len(found) > 1 else found[0])
        return found[0] if len(found) == 1 else None

    def of_step(self, t, told):
        """A name that the kit makes in a goal of a function: it leads to the function, or to the one that is called."""
        decl, part = told.decl, None
        if t.text in ("args", "initial", "fn"):
            part = "variables"
        elif told.part == "whole" and t.text not in ("requires", "ensures", "result", "now", "new", "old", "last"):
            part = "variables" if t.text.startswith("loop-") and not t.text.endswith("-test") else "part"
            decl = self.house.called(t.text.split("-")[0], decl.file.crate) or decl
        self.mark(t.start, t.end, "made", decl)
        return Local(Step(decl, part)) if part else None

    # ---- terms

    def walk(self, toks, scope, into=None):
        """A term: every word is marked. What its outermost binders bind goes into another scope, if one is given."""
        outermost = here = Scope(scope)
        self.over()
        i = 0
        while i < len(toks):
            t = toks[i]
            if t.kind == "mark":
                here, i = self.walk_mark(toks, i, here, outermost)
            elif t.kind == "string":
                self.atom(None)
                i += 1
            elif t.text == "λ":
                self.mark(t.start, t.end, "word")
                i = self.binders(toks, i + 1, here)
                self.over()
            elif t.text == "let":
                self.mark(t.start, t.end, "word")
                i = self.let(toks, i + 1, here)
                self.over()
            elif t.text in ("[", "|", "]") and (t.text == "[" or here.kind == "case"):
                here, i = self.walk_case(toks, i, here)
            elif t.text in SIGNS:
                self.over()
                i += 1
            elif t.text in RESERVED:
                self.mark(t.start, t.end, "word")
                if t.text == "unfold":
                    here.lets.append([])
                elif t.text == "in" and here.lets:
                    for name, local in here.lets.pop():
                        here.bind(name, local)
                self.over()
                i += 1
            elif numeral(t.text):
                self.mark(t.start, t.end, "number")
                self.atom(None)
                i += 1
            else:
                i = self.path(toks, i, here)
        for name, meaning in outermost.names.items() if into is not None else ():
            into.bind(name, meaning)

    def walk_mark(self, toks, i, here, outermost):
        """A bracket, a dot, a comma or a semicolon: the scope behind it, and the place."""
        t = toks[i]
        if t.text in ("(", "{"):
            return self.walk_open(toks, i, here)
        if t.text in (")", "}"):
            while here.kind == "case" and here.outer is not None:
                here = here.outer
            if here.kind in ("record", "changed"):
                self.labels(here)
            if here is not outermost:
                self.applied, self.arguments = here.before
                after, here = here.after, here.outer
                for name, local in after:
                    here.bind(name, local)
                if t.text == ")":
                    self.atom(None)
            return here, i + 1
        if t.text == "." and i + 1 < len(toks) and toks[i + 1].kind == "name" and toks[i + 1].start == t.end:
            # behind a space a dot takes a field of the whole application
            whole = self.applied
            if isinstance(whole, Local) and self.arguments > 1:
                whole = None
            found = self.field(toks[i + 1], whole)
            self.applied, self.arguments = found, 1
            return here, i + 2
        self.over()
        if t.text == ";" and here.kind in ("record", "changed"):
            return here, self.label(toks, i + 1, here)
        return here, i + 1

    def walk_open(self, toks, i, here):
        """An opening bracket: a record, binders, an argument by its name, or a group."""
        inner = Scope(here, "group")
        inner.before = (self.applied, self.arguments)
        if toks[i].text == "{" and self.of_record(toks, i):
            inner.kind = "record" if toks[i - 1].text == "record" else "changed"
            self.over()
            return inner, self.label(toks, i + 1, inner)
        j = i + 1
        while j < len(toks) and toks[j].kind == "name" and toks[j].text not in SIGNS - {"_"} | RESERVED:
            j += 1
        self.over()
        if i + 1 < j < len(toks) and toks[j].text == ":":
            head = self.house.head(toks[j + 1 : bracket(toks, i)], here)
            inner.after = [(x.text, Local(head)) for x in toks[i + 1 : j]]
            for x in toks[i + 1 : j]:
                self.mark(x.start, x.end, "local")
            return inner, j + 1
        if toks[i].text == "{" and j == i + 2 and j < len(toks) and toks[j].text == "=":
            self.mark(toks[i + 1].start, toks[i + 1].end, "label")
            return inner, j + 1
        return inner, i + 1

    def walk_case(self, toks, i, here):
        """The beginning of a case, or the end of the last one."""
        self.over()
        if toks[i].text != "[":
            here = here.outer
        if toks[i].text == "]":
            self.arguments = 1
            return here, i + 1
        case, arrow = Scope(here, "case"), self.arrow(toks, i + 1)
        if arrow is None:
            return case, i + 1
        self.pattern(toks[i + 1 : arrow], case)
        self.over()
        return case, arrow + 1

    @staticmethod
    def arrow(toks, i):
        """The place of the ↦ that ends the pattern from i on, if one does."""
        depth = 0
        for j in range(i, len(toks)):
            depth += deeper(toks[j])
            if depth < 0 or depth == 0 and toks[j].text in ("|", "]"):
                return None
            if depth == 0 and toks[j].text == "↦":
                return j
        return None

    # ---- records

    @staticmethod
    def of_record(toks, i):
        """Whether a brace opens the entries of a record: of one by itself, or behind the one that it changes."""
        k = i - 1
        if k > 0 and toks[k].text == ")":
            depth = 0
            while k > 0:
                depth += (toks[k].text in (")", "}")) - (toks[k].text in ("(", "{"))
                if depth == 0:
                    break
                k -= 1
            return toks[k - 1].text == "record"
        while k > 1 and toks[k].kind == "name" and toks[k - 1].text == "." and toks[k].start == toks[k - 1].end:
            k -= 2
        return k >= 0 and toks[k].text == "record" or k > 0 and toks[k - 1].text == "record"

    @staticmethod
    def label(toks, i, here):
        """The label of a record's entry, which `labels` marks when all of them are known."""
        if i + 1 < len(toks) and toks[i].kind == "name" and toks[i + 1].text in ("=", ":"):
            here.labels.append(toks[i])
            if toks[i + 1].text == ":":
                here.bind(toks[i].text, Local())
            return i + 2
        return i

    def labels(self, here):
        """The labels of a whole record: fields of the record that has just these; of a changed one, that has these."""
        told = self.house.record_with({t.text for t in here.labels}, self.file.crate, here.kind == "record")
        for t in here.labels:
            found = [d for r in told for d in r.fields if d.name == t.text]
            if found:
                self.mark(t.start, t.end, "link", found if len(found) > 1 else found[0])
            elif self.house.meets_kit(self):
                self.mark(t.start, t.end, "kit", "a field of a record of the kit's")
            else:
                self.unknown(t)

    # ---- binders

    def binders(self, toks, i, scope):
        """What a λ binds, up to its dot; answers the place behind that."""
        depth = 0
        while i < len(toks):
            t = toks[i]
            if t.kind == "mark":
                if t.text == "." and depth == 0:
                    return i + 1
                depth += deeper(t)
            elif t.text == ":":
                end, level = i, 0
                while end < len(toks) and level + deeper(toks[end]) >= 0:
                    level += deeper(toks[end])
                    end += 1
                head = self.house.head(toks[i + 1 : end], scope)
                self.walk(toks[i + 1 : end], scope)
                k = i - 1
                while toks[k].kind == "name":
                    scope.bind(toks[k].text, Local(head))
                    k -= 1
                i = end
                continue
            elif t.text == "record":
                self.mark(t.start, t.end, "word")
            elif i + 1 < len(toks) and toks[i + 1].text == "=":
                self.mark(t.start, t.end, "label")
            elif t.text not in SIGNS:
                scope.bind(t.text, Local())
                self.mark(t.start, t.end, "local")
            i += 1
        return i

    def let(self, toks, i, scope):
        """What a let binds; it holds from its `in` on. Answers the place behind its `=`."""
        depth, colon, end = 0, None, i
        while end < len(toks):
            t = toks[end]
            depth += deeper(t)
            if depth == 0 and t.text == ":" and colon is None:
                colon = end
            elif depth == 0 and t.text == "=":
                break
            end += 1
        left = toks[i : colon if colon is not None else end]
        if colon is not None:
            head = self.house.head(toks[colon + 1 : end], scope)
            self.walk(toks[colon + 1 : end], scope)
        else:
            head = self.house.record_of(self.value_of(toks, end + 1, scope))
        bound = []
        for k, t in enumerate(left):
            if t.kind != "name" or t.text in SIGNS:
                continue
            if t.text == "record":
                self.mark(t.start, t.end, "word")
            elif k + 1 < len(left) and left[k + 1].text == "=":
                self.mark(t.start, t.end, "label")
            else:
                self.mark(t.start, t.end, "local")
                bound.append((t.text, Local(head if len(left) == 1 else None)))
        scope.lets.append(bound)
        return end + 1

    def value_of(self, toks, i, scope):
        """What is applied in the value of a let, where that is one application of a name of ours and nothing else."""
        if i >= len(toks) or toks[i].kind != "name" or toks[i].text in RESERVED:
            return None
        depth = 0
        for t in toks[i:]:
            depth += deeper(t)
            if depth == 0 and t.text == "in":
                break
            if depth == 0 and (
                t.text in (".", ",") or t.text in SIGNS or t.kind == "name" and self.meaning(t, scope)[1]
            ):
                return None
        found = scope.find(toks[i].text)
        if isinstance(found, Local) and isinstance(found.head, Step):
            return found if i + 1 < len(toks) and toks[i + 1].text == "in" else None
        return found if getattr(found, "kind", "") in ("definition", "law", "helper") else None
