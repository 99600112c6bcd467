"""What the models of the examples share: the stimulus, the order of an eval, and the texts that a run writes.

A model is a class of a design with

    TREE            the scopes and their variables, as text: `in NAME:WIDTH`, `out NAME:WIDTH`, `NAME:WIDTH`, each perhaps with
                    ` = INIT`; `module NAME` and `begin NAME` open a scope, and what is indented more stands in it
    EVENTS          the events of its clocked processes, as pairs of a variable and `posedge` or `negedge`
    settle(v)       sets all combinational variables of v from inputs and registers
    fire(v, edges)  the writes of the clocked processes that fire at these edges, as a map of variables to values; memories
                    are kept in the model, and their writes are made by `after`

where v maps a path below the top to a value. It is written by hand from what the design is for, not made from its source.
"""


class Variable:
    def __init__(self, path, name, width, init, direction, scope):
        self.path, self.name, self.width, self.init, self.direction, self.scope = path, name, width, init, direction, scope


class Scope:
    def __init__(self, kind, name, path):
        self.kind, self.name, self.path, self.variables, self.scopes = kind, name, path, [], []


def tree_of(text):
    """The top scope of a model's TREE."""
    stack = []
    top = None
    for line in text.splitlines():
        if not line.strip():
            continue
        depth = len(line) - len(line.lstrip())
        words = line.split()
        while stack and stack[-1][0] >= depth:
            stack.pop()
        if words[0] in ("module", "begin"):
            inside = stack[-1][1] if stack else None
            path = "" if inside is None else f"{inside.path}{words[1]}."
            scope = Scope(words[0], words[1], path)
            if inside is None:
                top = scope
            else:
                inside.scopes.append(scope)
            stack.append((depth, scope))
            continue
        direction = words.pop(0) if words[0] in ("in", "out") else None
        init = int(words[2], 0) if len(words) == 3 else 0
        name, _, width = words[0].partition(":")
        scope = stack[-1][1]
        scope.variables.append(Variable(scope.path + name, name, int(width or 1), init, direction, scope))
    return top


def variables_of(scope):
    """All variables in the order of a waveform: those of a scope, then those of its scopes."""
    found = list(scope.variables)
    for inner in scope.scopes:
        found += variables_of(inner)
    return found


def acts_of(text):
    """The acts of a stimulus: ('set', name, value), ('eval',), ('clock', name, turns)."""
    for line in text.splitlines():
        words = line.split()
        if not words or words[0].startswith("#"):
            continue
        if words[0] == "set":
            yield "set", words[1], int(words[2], 16)
        elif words[0] == "clock":
            for _ in range(int(words[2])):
                yield "set", words[1], 1
                yield ("eval",)
                yield "set", words[1], 0
                yield ("eval",)
        else:
            yield ("eval",)


def hexadecimal(value, width):
    return f"{value:0{(width + 3) // 4}x}"


def code_of(k):
    """The code of variable k of a waveform."""
    text = chr(33 + k % 94)
    return text if k < 94 else text + code_of(k // 94 - 1)


def changed(variable, value, code):
    return f"{value:b}{code}" if variable.width == 1 else f"b{value:0{variable.width}b} {code}"


def header_of(top, values):
    lines = ["$timescale 1ns $end"]
    codes = {}

    def put(scope):
        lines.append(f"$scope {scope.kind} {scope.name} $end")
        for variable in scope.variables:
            codes[variable.path] = code_of(len(codes))
            places = f" [{variable.width - 1}:0]" if variable.width > 1 else ""
            lines.append(f"$var wire {variable.width} {codes[variable.path]} {variable.name}{places} $end")
        for inner in scope.scopes:
            put(inner)
        lines.append("$upscope $end")

    put(top)
    lines += ["$enddefinitions $end", "#0", "$dumpvars"]
    lines += [changed(x, values[x.path], codes[x.path]) for x in variables_of(top)]
    return lines + ["$end"], codes


class Model:
    TREE = ""
    EVENTS = []
    DEEMED_SAFE = ()

    def __init__(self):
        self.top = tree_of(self.TREE)
        self.widths = {x.path: x.width for x in variables_of(self.top)}
        self.v = {x.path: x.init for x in variables_of(self.top)}
        self.out, self.calls, self.number = [], [], 0
        self.begin()

    def begin(self):
        """Further state, such as memories."""

    def settle(self, v):
        raise NotImplementedError

    def fire(self, v, edges):
        return {}

    def after(self):
        """The writes of memories, after all clocked processes have read."""

    def call(self, name, arguments, reply, width=32):
        """Logs a call of an import whose arguments are pairs of a value and a width; gives its reply. A void one has the reply None."""
        if name not in self.DEEMED_SAFE:
            shown = ",".join(hexadecimal(value, wide) for value, wide in arguments)
            end = "" if reply is None else f" = {hexadecimal(reply, width)}"
            self.calls.append(f"{self.number} {name}({shown}){end}")
        return reply

    def put(self, values):
        for path, value in values.items():
            self.v[path] = value & ((1 << self.widths[path]) - 1)

    def eval(self, inputs):
        last = {name: self.v[name] if self.number else 0 for name, _ in self.EVENTS}
        self.put(inputs)
        self.settle(Values(self))
        while True:
            now = {name: self.v[name] for name, _ in self.EVENTS}
            edges = {(name, edge) for name, edge in self.EVENTS
                     if (last[name], now[name]) == ((0, 1) if edge == "posedge" else (1, 0))}
            if not edges:
                break
            writes = self.fire(Values(self), edges)
            self.put(writes)
            self.after()
            self.settle(Values(self))
            last = now
        outputs = [x for x in self.top.variables if x.direction == "out"]
        self.out.append(" ".join([str(self.number)] + [f"{x.name}={hexadecimal(self.v[x.path], x.width)}" for x in outputs]))
        self.number += 1

    def run(self, stimulus):
        """The texts of a run: standard output, the call log and the waveform."""
        inputs = {x.name: 0 for x in self.top.variables if x.direction == "in"}
        wave, codes = header_of(self.top, self.v)
        for act in acts_of(stimulus):
            if act[0] == "set":
                inputs[act[1]] = act[2]
                continue
            before = dict(self.v)
            self.eval(inputs)
            wave.append(f"#{self.number}")
            wave += [changed(x, self.v[x.path], codes[x.path]) for x in variables_of(self.top) if self.v[x.path] != before[x.path]]
        text = lambda lines: "".join(line + "\n" for line in lines)
        return text(self.out), text(self.calls), text(wave)


class Values:
    """The variables of a model by path; what is set is cut to the variable's width."""

    def __init__(self, model):
        self.model = model

    def __getitem__(self, path):
        return self.model.v[path]

    def __setitem__(self, path, value):
        self.model.put({path: value})
