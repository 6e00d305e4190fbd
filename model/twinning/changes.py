"""Every change of one constant, comparison, sign, order or rounding of the model, by the syntax trees of its modules."""
import ast
import hashlib
import os
from collections.abc import Callable, Iterator
from types import CodeType

HERE = os.path.dirname(os.path.dirname(os.path.realpath(__file__)))
MODEL = os.path.join(HERE, "emtp_model")
# Each module behind those that it stands on.
MODULES = "fix cards case expr deck wave elim switches network tacs machine record trial phasor audit batch main".split()
# What says nothing of a case: traces, words on standard error, texts for who reads Python.
LEFT_OUT = {"Machine.tell", "Record.__repr__", "Bad.__init__", "main", "read_file"}
UNITS = {"E6", "E9", "E12", "E15", "E17", "E18", "E30", "E36"}
LARGE = 1000  # from here on a constant is made tenfold and a tenth besides

Place = tuple[ast.AST, str, int | None]
FLIPPED = {
    ast.Lt: (ast.LtE, ast.GtE),
    ast.LtE: (ast.Lt, ast.Gt),
    ast.Gt: (ast.GtE, ast.LtE),
    ast.GtE: (ast.Gt, ast.Lt),
    ast.Eq: (ast.NotEq,),
    ast.NotEq: (ast.Eq,),
    ast.Is: (ast.IsNot,),
    ast.IsNot: (ast.Is,),
    ast.In: (ast.NotIn,),
    ast.NotIn: (ast.In,),
}


class Twin:
    """A module with one thing changed: its name, where it stands, and what is changed into what."""

    def __init__(self, module: str, function: str, line: int, what: str, statement: int | None):
        self.module, self.function, self.line, self.what, self.statement = module, function, line, what, statement
        self.name = ""

    @property
    def place(self) -> str:
        """Module and function."""
        return f"{self.module}.{self.function}"


def source(module: str) -> str:
    """The text of a module."""
    with open(os.path.join(MODEL, module + ".py"), encoding="utf-8") as file:
        return file.read()


class Sites(ast.NodeVisitor):
    """The changes of one tree, each with a way to make it in this tree."""

    def __init__(self, module: str, telling: bool):
        self.module, self.telling = module, telling
        self.names: list[str] = []
        self.inside = False
        self.statement: int | None = None
        self.at: Place = (ast.Module([], []), "body", None)
        self.found: list[tuple[Twin, Callable[[], None]]] = []

    def site(self, node: ast.AST, put: Callable[[], None], new: str, old: str | None = None) -> None:
        """Keeps a change of this node."""
        function = ".".join(self.names) or "module"
        if function.split(".<")[0] in LEFT_OUT:
            return
        what = f"{old or ast.unparse(node)} -> {new}" if self.telling else ""
        self.found.append((Twin(self.module, function, node.lineno, what, self.statement), put))

    def text(self, node: ast.AST) -> str:
        """The text of a node, where it is wanted."""
        return ast.unparse(node) if self.telling else ""

    def replace(self, node: ast.AST, new: ast.AST) -> None:
        """A change of the node into another one."""
        parent, field, index = self.at
        text = self.text(new)

        def put() -> None:
            ast.copy_location(new, node)
            ast.fix_missing_locations(new)
            if index is None:
                setattr(parent, field, new)
            else:
                getattr(parent, field)[index] = new

        self.site(node, put, text)

    def generic_visit(self, node: ast.AST) -> None:
        """What has no change of its own."""
        self.walk(node)

    def walk(self, node: ast.AST) -> None:
        """The changes of what stands in this node; a statement of a function is known by its line."""
        for field, value in ast.iter_fields(node):
            if field in ("annotation", "returns", "type_comment", "decorator_list"):
                continue
            for index, child in enumerate(value) if isinstance(value, list) else [(None, value)]:
                if isinstance(child, ast.AST):
                    self.at = (node, field, index)
                    outer = self.statement
                    if isinstance(child, ast.stmt) and self.inside:
                        self.statement = child.lineno
                    self.visit(child)
                    self.statement = outer

    def visit_FunctionDef(self, node: ast.FunctionDef) -> None:
        """A function; what stands within it is run with it."""
        outer, self.inside = self.inside, True
        self.names.append(node.name)
        self.walk(node)
        self.names.pop()
        self.inside = outer

    def visit_ClassDef(self, node: ast.ClassDef) -> None:
        """A class; what stands in it outside of methods runs with the module."""
        self.names.append(node.name)
        self.walk(node)
        self.names.pop()

    def visit_Expr(self, node: ast.Expr) -> None:
        """A docstring is no part of what is done."""
        if not (isinstance(node.value, ast.Constant) and isinstance(node.value.value, str)):
            self.walk(node)

    def visit_Raise(self, node: ast.Raise) -> None:
        """What can't be reached is left out."""
        if not (isinstance(node.exc, ast.Call) and ast.unparse(node.exc.func) == "AssertionError"):
            self.walk(node)

    def visit_Assert(self, node: ast.Assert) -> None:
        """What holds anyway is left out."""

    def visit_JoinedStr(self, node: ast.JoinedStr) -> None:
        """Words for who reads Python are left out."""

    def visit_Constant(self, node: ast.Constant) -> None:
        """A number one more; a large one tenfold and a tenth besides; the other truth; another text."""
        old = node.value
        if isinstance(old, bool):
            self.replace(node, ast.Constant(not old))
        elif isinstance(old, int):
            self.replace(node, ast.Constant(old + 1))
            if old >= LARGE:
                self.replace(node, ast.Constant(old * 10))
                self.replace(node, ast.Constant(old // 10))
        elif isinstance(old, (str, bytes)) and old:
            self.replace(node, ast.Constant(f"{old}~" if isinstance(old, str) else old + b"~"))

    def visit_Name(self, node: ast.Name) -> None:
        """A unit is a constant where it is used."""
        if node.id in UNITS and isinstance(node.ctx, ast.Load):
            here = self.at
            for operator, other in ((ast.Add, 1), (ast.Mult, 10), (ast.FloorDiv, 10)):
                self.at = here
                self.replace(node, ast.BinOp(ast.Name(node.id, ast.Load()), operator(), ast.Constant(other)))

    def visit_Compare(self, node: ast.Compare) -> None:
        """A comparison that has its end or not, and the opposite one."""
        for index, old in enumerate(node.ops):
            for new in FLIPPED[type(old)]:

                def put(index: int = index, new: type = new) -> None:
                    node.ops[index] = new()

                ops = list(node.ops)
                ops[index] = new()
                self.site(node, put, self.text(ast.Compare(node.left, ops, node.comparators)))
        self.walk(node)

    def visit_BoolOp(self, node: ast.BoolOp) -> None:
        """The other connective."""
        new = ast.Or() if isinstance(node.op, ast.And) else ast.And()

        def put() -> None:
            node.op = new

        self.site(node, put, self.text(ast.BoolOp(new, node.values)))
        self.walk(node)

    def visit_UnaryOp(self, node: ast.UnaryOp) -> None:
        """Without its sign, without its not."""
        here = self.at
        if isinstance(node.op, (ast.USub, ast.Not)):
            self.replace(node, node.operand)
            self.at = here
        self.walk(node)

    def visit_BinOp(self, node: ast.BinOp) -> None:
        """The other sign."""
        self.sign(node, lambda new: ast.BinOp(node.left, new, node.right))

    def visit_AugAssign(self, node: ast.AugAssign) -> None:
        """The other sign."""
        self.sign(node, lambda new: ast.AugAssign(node.target, new, node.value))

    def sign(self, node: ast.BinOp | ast.AugAssign, other: Callable[[ast.operator], ast.AST]) -> None:
        """Plus and minus exchanged."""
        if isinstance(node.op, (ast.Add, ast.Sub)):
            new = ast.Sub() if isinstance(node.op, ast.Add) else ast.Add()

            def put() -> None:
                node.op = new

            self.site(node, put, self.text(other(new)))
        self.walk(node)

    def visit_Call(self, node: ast.Call) -> None:
        """Cut off downwards instead of rounded; the least instead of the greatest."""
        name = node.func.id if isinstance(node.func, ast.Name) else ""
        here = self.at
        if name == "near":
            self.replace(node, ast.BinOp(node.args[0], ast.FloorDiv(), node.args[1]))
        if name in ("max", "min"):
            func = ast.Name("min" if name == "max" else "max", ast.Load())
            self.replace(node, ast.Call(func, node.args, node.keywords))
        self.at = here
        self.walk(node)

    def visit_If(self, node: ast.If) -> None:
        """Two cases in the other order, where both may be true."""
        if len(node.orelse) == 1 and isinstance(node.orelse[0], ast.If):
            after = node.orelse[0]
            if not (equality(node.test) and equality(after.test)):

                def put() -> None:
                    node.test, after.test = after.test, node.test
                    node.body, after.body = after.body, node.body

                tests = self.text(node.test), self.text(after.test)
                self.site(node, put, f"{tests[1]} before {tests[0]}", f"{tests[0]} before {tests[1]}")
        self.walk(node)


def equality(test: ast.expr) -> bool:
    """Whether a test asks what one thing is equal to."""
    return isinstance(test, ast.Compare) and isinstance(test.ops[0], (ast.Eq, ast.In))


def sites(module: str, tree: ast.Module, telling: bool = True) -> list[tuple[Twin, Callable[[], None]]]:
    """The changes of a module's tree; each twin is named by its function and a number in it."""
    found = Sites(module, telling)
    found.walk(tree)
    counts: dict[str, int] = {}
    for twin, _ in found.found:
        counts[twin.place] = counts.get(twin.place, 0) + 1
        twin.name = f"{twin.place}.{counts[twin.place]}"
    return found.found


def twins() -> Iterator[Twin]:
    """All twins of the model."""
    for module in MODULES:
        for twin, _ in sites(module, ast.parse(source(module))):
            yield twin


def model_sum() -> str:
    """The sum of the model's modules, their layout aside, and of their twins."""
    told = hashlib.sha256()
    for module in MODULES:
        told.update(ast.dump(ast.parse(source(module))).encode())
    for twin in twins():
        told.update(f"{twin.name} {twin.what}\n".encode())
    return told.hexdigest()


class Tree:
    """The tree of a module, with its changes by the names of the twins; one of them can be made."""

    def __init__(self, module: str):
        self.module, self.tree = module, ast.parse(source(module))
        self.puts = {twin.name: put for twin, put in sites(module, self.tree, False)}

    def changed(self, twin: Twin) -> CodeType:
        """The code of the module as the twin has it."""
        self.puts[twin.name]()
        code: CodeType = compile(ast.fix_missing_locations(self.tree), self.module, "exec")
        return code


class Noting(ast.NodeTransformer):
    """Puts a note of its line before each statement of a function."""

    inside = False

    def visit_FunctionDef(self, node: ast.FunctionDef) -> ast.FunctionDef:
        """A function and those within it."""
        outer, self.inside = self.inside, True
        self.generic_visit(node)
        self.inside = outer
        return node

    def generic_visit(self, node: ast.AST) -> ast.AST:
        """The lists of statements of a node."""
        super().generic_visit(node)
        if self.inside:
            for field in ("body", "orelse", "finalbody"):
                old = getattr(node, field, None)
                if isinstance(old, list):
                    setattr(node, field, [new for it in old for new in (self.note(it), it)])
        return node

    @staticmethod
    def note(statement: ast.stmt) -> ast.stmt:
        """The note of a statement."""
        return ast.parse(f"_seen[{statement.lineno}] = 1").body[0]


def noting(module: str) -> ast.Module:
    """The tree of a module that notes in `_seen` which statements of functions were run."""
    tree = ast.parse(source(module))
    Noting().visit(tree)
    return ast.fix_missing_locations(tree)
