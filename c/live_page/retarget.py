"""Makes the LLVM module that the kit builds of goi_c for x86-64 one for WebAssembly with addresses of 64 bits. No proof covers it.

The kit builds for WebAssembly itself, but refuses an export that reaches the heap, as each of goi_c's does. Its modules for the two have
the same code: both lay values out in bytes, with pointers of 8. What is changed here is what the kit's two modules of one crate differ in:

  1. the layout, the triple and the processor, in the head and in the attributes;
  2. each function begins by testing that its frame lies above address 16. A module's stack begins at its address 0, with no guard below
     it, and a frame at 0 would have an address that reads as null;
  3. an exported function has its name as an attribute.

The kit's module also notes when a call has begun and ended, so that none can follow on one that was cut off. The page sees to that: an
instance of the module whose call was cut off gets no other (machine.js).
"""

import re

TRIPLE = "wasm64-unknown-unknown"
LAYOUT = "e-m:e-p:64:64-p10:8:8-p20:8:8-i64:64-i128:128-n32:64-S128-ni:1:10:20"
PROBES = '"probe-stack"="inline-asm" "stack-probe-size"="3072"'
OF_PROCESSOR = f'"no-builtin-bcmp" "no-builtin-memcmp" "no-builtin-strlen" {PROBES} "target-cpu"="lime1"'

TEST = """\
  %frame.of.it = call ptr @llvm.frameaddress.p0(i32 0)
  call void @goi.holds.frame(ptr %frame.of.it)"""
TESTING = """\
define internal void @goi.holds.frame(ptr %frame) alwaysinline nounwind {
start:
  %address = ptrtoaddr ptr %frame to i64
  %below = icmp slt i64 %address, 16
  br i1 %below, label %over, label %fine

over:
  call void @llvm.trap()
  unreachable

fine:
  ret void
}

declare ptr @llvm.frameaddress.p0(i32 immarg)
"""
TRAP = "declare void @llvm.trap()"


def retarget(text):
    """The text of the module for WebAssembly, and the names of its exports. ValueError where the text isn't as it is known to be."""
    if re.search(r"llvm\.x86|llvm\.aarch64| asm ", text):
        raise ValueError("the module has code for one processor alone")
    text = once(r'^target datalayout = ".*"$', f'target datalayout = "{LAYOUT}"', text)
    text = once(r'^target triple = ".*"$', f'target triple = "{TRIPLE}"', text)
    text, changed = re.subn(PROBES + ' "target-cpu"="x86-64[^"]*"', OF_PROCESSOR, text)
    if not changed or "x86" in text:
        raise ValueError("the module's attributes are others")
    lines, exports = [], []
    for function in functions(text.split("\n")):
        if function[0].startswith("define "):
            name = re.match(r'define [^@]*@("[^"]*"|[\w.$]+)\(', function[0])[1]
            if " internal " not in function[0].split("@")[0]:
                exports.append(name)
                function[0] = once(r" \{$", f' "wasm-export-name"="{name}" {{', function[0])
            function.insert(behind_allocas(function), TEST)
        lines += function
    lines.append(TESTING)
    if TRAP not in text:
        lines.append(TRAP)
    return "\n".join(lines), exports


def once(pattern, new, text):
    text, count = re.subn(pattern, lambda _: new, text, flags=re.M)
    if count != 1:
        raise ValueError(f"the module has {count} places for {new}")
    return text


def functions(lines):
    """The lines in rows: those of a function, from its `define` to its `}`, and each other line alone."""
    row = []
    for line in lines:
        row.append(line)
        if line == "}" or not row[0].startswith("define "):
            yield row
            row = []
    if row:
        raise ValueError("the module ends within a function")


def behind_allocas(function):
    """The place in a function's first block behind the last of its local places."""
    if function[1] != "start:":
        raise ValueError(f"a function begins in another way: {function[0][:200]}")
    end = function.index("", 2) if "" in function else len(function) - 1
    return max([1] + [at for at in range(2, end) if " = alloca " in function[at]]) + 1
