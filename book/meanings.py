"""What a name can mean, and the scopes in which names are looked for."""


class Scope:
    """The names that are bound here; what is not found is looked for outside."""

    def __init__(self, outer=None, kind=""):
        self.outer, self.kind, self.names, self.after, self.lets, self.labels = outer, kind, {}, [], [], []
        self.parts = {}

    def bind(self, name, meaning):
        self.names[name] = meaning
        if "◌" in name:
            for part in name.split("◌"):
                if part:
                    self.parts[part] = meaning

    def find(self, name):
        at = self
        while at is not None:
            if name in at.names:
                return at.names[name]
            at = at.outer
        return None

    def find_part(self, word):
        at = self
        while at is not None:
            if word in at.parts:
                return at.parts[word]
            at = at.outer
        return None


class Local:
    """A bound variable, with the head of its type where that is written."""

    __slots__ = ("head",)

    def __init__(self, head=None):
        self.head = head


class Kit:
    """A name of the language's own libraries, or a module of them."""

    __slots__ = ("path",)

    def __init__(self, path):
        self.path = path


class Made:
    """A module that the kit makes from a function or a type of ours: its names lead there."""

    __slots__ = ("decl", "path")

    def __init__(self, decl, path):
        self.decl, self.path = decl, path


class Step:
    """What the kit tells of a function where a goal of it stands: the whole, its variables, or one call or branch."""

    __slots__ = ("decl", "part")

    def __init__(self, decl, part):
        self.decl, self.part = decl, part


class Module:
    """A file of ours, as what stands before a dot."""

    __slots__ = ("file",)

    def __init__(self, file):
        self.file = file


class Constants:
    """The constants of a crate of ours, as what stands before a dot."""

    __slots__ = ("crate",)

    def __init__(self, crate):
        self.crate = crate


class Variants:
    """The variants of an enum of Rattle, as what stands before a dot."""

    __slots__ = ("decl",)

    def __init__(self, decl):
        self.decl = decl
