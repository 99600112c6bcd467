"""Runs a design and its stimulus in Icarus Verilog, for the scripts that compare with it.

Icarus Verilog has four-state values and a queue of events. So all registers and memories are set to 0 at the start, by a small
module in C, and an eval sets the inputs that are no events, lets the design settle, then sets the others. A call of an import is a function
of the library written again here.
"""
import os
import re
import resource
import shutil
import subprocess

TOOLS = ("iverilog", "vvp", "iverilog-vpi", "cc")

ZERO = r"""
#include <vpi_user.h>
#include <string.h>
static void clear(vpiHandle h) {
  s_vpi_value v;
  v.format = vpiBinStrVal;
  vpi_get_value(h, &v);
  if (!strpbrk(v.value.str, "xXzZ")) return;
  v.format = vpiIntVal;
  v.value.integer = 0;
  vpi_put_value(h, &v, 0, vpiNoDelay);
}
static void walk(vpiHandle scope) {
  vpiHandle all, one, words, word;
  if ((all = vpi_iterate(vpiReg, scope))) while ((one = vpi_scan(all))) clear(one);
  if ((all = vpi_iterate(vpiMemory, scope)))
    while ((one = vpi_scan(all)))
      if ((words = vpi_iterate(vpiMemoryWord, one))) while ((word = vpi_scan(words))) clear(word);
  if ((all = vpi_iterate(vpiInternalScope, scope))) while ((one = vpi_scan(all))) walk(one);
}
static PLI_INT32 zero(PLI_BYTE8 *none) {
  vpiHandle all = vpi_iterate(vpiModule, 0), one;
  (void)none;
  while ((one = vpi_scan(all))) walk(one);
  return 0;
}
static void enter(void) {
  s_vpi_systf_data task = {vpiSysTask, 0, "$zero", zero, 0, 0, 0};
  vpi_register_systf(&task);
}
void (*vlog_startup_routines[])(void) = {enter, 0};
"""

# The import library: the body of a function of each name, with A and B for the arguments and R for the result.
LIBRARY = {
    "vs_popcount": "R = 0; for (k = 0; k < 64; k = k + 1) R = R + A[k];",
    "vs_parity": "R = ^A;",
    "vs_reverse": "R = 0; for (k = 0; k < 32; k = k + 1) R[31 - k] = A[k];",
    "vs_mix": "R = A * 64'd11400714819323198485 + B; R = R ^ (R >> 32);",
    "vs_max": "R = A > B ? A : B;",
    "vs_min": "R = A < B ? A : B;",
    "vs_rotl": "R = ((A & 64'hffffffff) << (B & 31) | (A & 64'hffffffff) >> ((32 - (B & 31)) & 63)) & 64'hffffffff;",
    "vs_next": "lib_next = lib_next + 1; R = lib_next;",
    "vs_put": "lib_sum = lib_sum + A; R = 0;",
    "vs_sum": "R = lib_sum;",
    "vs_peek": "R = lib_cell[A & 15];",
    "vs_poke": "R = lib_cell[A & 15]; lib_cell[A & 15] = B;",
}
WIDTHS = {"byte": 8, "shortint": 16, "int": 32, "integer": 32, "longint": 64, "bit": 1, "logic": 1}


class Skip(Exception):
    """This design is not run, for a reason."""


def bare(text):
    """A source without comments; the places of its tokens change."""
    return re.sub(r"//[^\n]*|/\*.*?\*/", " ", text, flags=re.S)


def width_of(kind):
    return next((WIDTHS[word] for word in kind.split() if word in WIDTHS), 1)


def with_imports(text):
    """The source with each import as a function of its own; a void one is a task."""
    made = []

    def put(match):
        link, kind, name, inside = match["link"], match["kind"], match["name"], match["args"]
        arguments = []
        for at, one in enumerate(part.strip() for part in inside.split(",") if part.strip()):
            words = [word for word in one.split() if word != "input"]
            if words[-1] not in WIDTHS and words[-1] not in ("signed", "unsigned"):
                words.pop()
            arguments.append((" ".join(words), f"arg{at}"))
        if (link or name) not in LIBRARY:
            raise Skip(f"no import {link or name}")
        sets = "".join(f" {'AB'[at]} = {{{64 - width_of(kind_of)}'d0, {arg}}};" if width_of(kind_of) < 64 else f" {'AB'[at]} = {arg};"
                       for at, (kind_of, arg) in enumerate(arguments[:2]))
        heads = ", ".join(f"input {kind_of} {arg}" for kind_of, arg in arguments)
        body = f"reg [63:0] A, B, R; integer k; begin A = 0; B = 0;{sets} {LIBRARY[link or name]}"
        if kind == "void":
            made.append(f"task {name}({heads}); {body} end endtask")
        else:
            made.append(f"function {kind} {name}({heads}); {body} {name} = R; end endfunction")
        return ""

    text = re.sub(r'import\s*"DPI-C"\s*(?:pure|context)?\s*(?:(?P<link>\w+)\s*=)?\s*function\s+(?P<kind>\w+(?:\s+(?:signed|unsigned))?)\s+'
                  r"(?P<name>\w+)\s*\((?P<args>[^)]*)\)\s*;", put, bare(text))
    if not made:
        return text
    return "reg [63:0] lib_next = 0, lib_sum = 0;\nreg [63:0] lib_cell [0:15];\n" + "\n".join(made) + "\n" + text


def group(text, at):
    """What stands between the parenthesis at a place and its end, and the place after it."""
    depth, start = 0, at + 1
    while at < len(text):
        depth += (text[at] in "([{") - (text[at] in ")]}")
        at += 1
        if depth == 0:
            return text[start:at - 1], at
    raise Skip("a head that is not read here")


def parts(text):
    """The parts of a list between commas that stand in no bracket."""
    found, depth, last = [], 0, 0
    for at, mark in enumerate(text):
        depth += (mark in "([{") - (mark in ")]}")
        if mark == "," and depth == 0:
            found.append(text[last:at].strip())
            last = at + 1
    rest = text[last:].strip()
    return found + [rest] if rest else found


def number(text, names):
    text = re.sub(r"\d*'s?([bodh])([0-9a-fA-F_]+)", lambda m: str(int(m[2], {"b": 2, "o": 8, "d": 10, "h": 16}[m[1].lower()])), text)
    text = re.sub(r"\$clog2\s*\(", "clog2(", text).replace("/", "//")
    try:
        return int(eval(text, {"__builtins__": {}}, {**names, "clog2": lambda x: max(0, (x - 1).bit_length())}))
    except Exception as fault:
        raise Skip(f"a range that is not read here: {text}") from fault


def top_of(text, wanted):
    names = re.findall(r"\bmodule\s+(\w+)", text)
    if wanted:
        return wanted
    free = [name for name in names if not re.search(rf"\b{name}\s*(?:#|\w+\s*\()", re.sub(rf"\bmodule\s+{name}\b", "", text))]
    if len(free) != 1:
        raise Skip("no one top is seen here")
    return free[0]


def ports_of(text, top):
    """The ports of a module: pairs of direction, name and width, in order."""
    at = re.search(rf"\bmodule\s+{top}\b\s*", text).end()
    names = {}
    if text[at] == "#":
        inside, at = group(text, text.index("(", at))
        for one in parts(inside):
            left, _, right = one.partition("=")
            names[left.split()[-1]] = number(right, names)
        at += len(text[at:]) - len(text[at:].lstrip())
    if text[at] != "(":
        return []
    inside, _ = group(text, at)
    found, direction, width = [], None, 1
    for one in parts(inside):
        match = re.fullmatch(r"(input|output)?\s*((?:logic|bit|reg|wire|byte|shortint|int|longint|integer)?\s*(?:signed|unsigned)?)\s*(\[.*\])?\s*(\w+)", one, re.S)
        if not match:
            raise Skip(f"a port that is not read here: {one}")
        if match[1] or match[2].strip() or match[3]:
            direction = match[1] or direction
            width = width_of(match[2])
            if match[3]:
                left, _, right = match[3][1:-1].partition(":")
                width = number(left, names) - number(right, names) + 1
        found.append((direction, match[4], width))
    return found


def acts_of(data):
    for line in data.decode().split("\n"):
        words = line.rstrip("\r").split()
        if not words or words[0].startswith("#"):
            continue
        if words[0] == "set":
            yield words[1], int(words[2], 16)
        elif words[0] == "clock":
            for _ in range(int(words[2])):
                yield words[1], 1
                yield None, 0
                yield words[1], 0
                yield None, 0
        else:
            yield None, 0


def bench_of(top, ports, events, wave):
    """A module that reads acts as numbers, one a line, and prints the outputs after each eval."""
    inputs = [(name, width) for direction, name, width in ports if direction == "input"]
    outputs = [(name, width) for direction, name, width in ports if direction == "output"]
    lines = ["module the_bench;", "integer file, code, got, count; reg [127:0] value;"]
    lines += [f"reg [{width - 1}:0] in_{name} = 0, next_{name} = 0;" for name, width in inputs]
    lines += [f"wire [{width - 1}:0] out_{name};" for name, width in outputs]
    links = [f".{name}(in_{name})" for name, _ in inputs] + [f".{name}(out_{name})" for name, _ in outputs]
    lines += [f"{top} dut({', '.join(links)});", "initial begin", "$zero; count = 0;"]
    if wave:
        lines += ['$dumpfile("wave.vcd"); $dumpvars(0, dut);']
    lines += ['file = $fopen("acts.txt", "r");', 'got = $fscanf(file, "%d %h", code, value);', "while (got == 2) begin", "case (code)"]
    lines += [f"{k + 1}: next_{name} = value;" for k, (name, _) in enumerate(inputs)]
    lines += ["default: begin"]
    lines += [f"in_{name} = next_{name};" for name, _ in inputs if name not in events] + ["#1;"]
    lines += [f"in_{name} = next_{name};" for name, _ in inputs if name in events] + ["#1;"]
    form = "".join(f" {name}=%h" for name, _ in outputs)
    values = "".join(f", out_{name}" for name, _ in outputs)
    lines += [f'$display("%0d{form}", count{values}); count = count + 1; #1;', "end", "endcase"]
    lines += ['got = $fscanf(file, "%d %h", code, value);', "end", "$finish;", "end", "endmodule"]
    return "\n".join(lines) + "\n"


def values_of(text, outer):
    """The values of a waveform: a map of a time to a map of paths to values, each whole, and the paths in order.

    A path begins below the so many outermost scopes."""
    codes, path, paths, now, values, all_of = {}, [], [], 0, {}, {}
    head = True
    for line in text.splitlines():
        words = line.split()
        if not words:
            continue
        if head:
            if words[0] == "$scope":
                path.append(words[2])
            elif words[0] == "$upscope":
                path.pop()
            elif words[0] == "$var" and words[1] != "parameter":
                name = ".".join(path[outer:] + [words[4]])
                codes.setdefault(words[3], []).append(name)
                paths.append(name)
            elif words[0] == "$enddefinitions":
                head = False
            continue
        if line[0] == "#":
            all_of[now] = dict(values)
            now = int(line[1:])
        elif line[0] in "bB":
            for name in codes.get(words[1], []):
                values[name] = int(words[0][1:], 2) if set(words[0][1:]) <= {"0", "1"} else words[0][1:]
        elif line[0] in "01xz":
            for name in codes.get(line[1:], []):
                values[name] = int(line[0]) if line[0] in "01" else line[0]
    all_of[now] = dict(values)
    return all_of, paths


def at_time(all_of, times, moment):
    while len(times) > 1 and times[1] <= moment:
        times.pop(0)
    return all_of[times[0]]


def wave_differences(want, have, evals):
    ours, paths = values_of(want, 1)
    theirs, known = values_of(have, 2)
    shared = [path for path in paths if path in set(known)]
    missing = [path for path in paths if path not in set(known)]
    if missing:
        yield f"waveform: not seen in Icarus Verilog: {' '.join(missing[:5])}"
    mine, other = sorted(ours), sorted(theirs)
    for number_of in range(evals):
        one = at_time(ours, mine, number_of + 1)
        two = at_time(theirs, other, 3 * number_of + 2)
        for path in shared:
            if one.get(path) != two.get(path) and not isinstance(two.get(path), str):
                yield f"waveform: {path} after eval {number_of}: expected {one.get(path)}, in Icarus Verilog {two.get(path)}"
                return


def missing_tools():
    return [tool for tool in TOOLS if not shutil.which(tool)]


def make_module(folder):
    """Builds the module that clears registers, and gives its path."""
    with open(os.path.join(folder, "zero.c"), "w") as file:
        file.write(ZERO)
    subprocess.run(["iverilog-vpi", "zero.c"], cwd=folder, check=True, capture_output=True)
    return os.path.join(folder, "zero.vpi")


def run_one(folder, module, source, stimulus, top, want_wave, limit=120):
    """What Icarus Verilog writes, its waveform, and the processor seconds of its run alone."""
    shutil.copy(module, os.path.join(folder, "zero.vpi"))
    with open(os.path.join(folder, "source.sv"), "w") as file:
        file.write(source)
    subprocess.run(["iverilog", "-g2012", "-E", "-o", "plain.sv", "source.sv"], cwd=folder, capture_output=True)
    with open(os.path.join(folder, "plain.sv")) as file:
        text = with_imports("".join(line for line in file if not line.startswith("`line")))
    top = top_of(text, top)
    ports = ports_of(text, top)
    inputs = [name for direction, name, _ in ports if direction == "input"]
    acts = list(acts_of(stimulus))
    clocks = re.findall(rb"(?m)^\s*clock\s+(\S+)", stimulus)
    events = set(re.findall(r"\b(?:posedge|negedge)\s+(\w+)", text)) | {name.decode() for name in clocks}
    with open(os.path.join(folder, "design.sv"), "w") as file:
        file.write(text)
    with open(os.path.join(folder, "bench.sv"), "w") as file:
        file.write(bench_of(top, ports, events, want_wave))
    with open(os.path.join(folder, "acts.txt"), "w") as file:
        for name, value in acts:
            file.write(f"{inputs.index(name) + 1 if name else 0} {value:x}\n")
    made = subprocess.run(["iverilog", "-g2012", "-s", "the_bench", "-o", "run", "design.sv", "bench.sv"], cwd=folder, capture_output=True, text=True)
    if made.returncode:
        raise Skip("Icarus Verilog does not take it: " + (made.stderr.splitlines() or ["?"])[0][:150])
    before = resource.getrusage(resource.RUSAGE_CHILDREN)
    done = subprocess.run(["vvp", "-n", "-M.", "-mzero", "run"], cwd=folder, capture_output=True, text=True, timeout=limit)
    after = resource.getrusage(resource.RUSAGE_CHILDREN)
    seconds = after.ru_utime + after.ru_stime - before.ru_utime - before.ru_stime
    if done.returncode:
        raise Skip("Icarus Verilog does not run it: " + (done.stderr.splitlines() or ["?"])[0][:150])
    out = "".join(line + "\n" for line in done.stdout.splitlines() if not line.startswith("VCD info"))
    wave = ""
    if want_wave:
        with open(os.path.join(folder, "wave.vcd")) as file:
            wave = file.read()
    return out, wave, seconds


def unknown(line):
    """Whether a line of outputs has a digit that is not 0 or 1 throughout."""
    return any(set(word.partition("=")[2].lower()) & set("xz") for word in line.split())
