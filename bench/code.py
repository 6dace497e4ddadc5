# Run by gdb: the code and constants that commands to the card reach in the program `measure`, and the deepest stack that any path
# of calls could take, from the sections and relocations of its object file.
import re
import subprocess

OBJECT = "crates/measure/out/measure.o"
COMMAND = ".text.measure::bench_card::send"
LOADING = ".text.measure::bench_card::new_card"
# What makes an error's text for people is the program's, not the card's.
OTHERS = re.compile(r"\.text\.(core::convert|core::error|core::fmt|std)")


def lines(*options):
    return subprocess.run(["objdump", *options, "-w", OBJECT], capture_output=True, text=True, check=True).stdout.splitlines()


# Section sizes, and the section of each local symbol.
def sections():
    sizes, homes = {}, {}
    for line in lines("-h"):
        found = re.match(r" *\d+ (\S.*?) +([0-9a-f]{8})  [0-9a-f]{16}", line)
        if found:
            sizes[found[1]] = int(found[2], 16)
    for line in lines("-t"):
        found = re.match(r"[0-9a-f]{16} .{7} (\.\S.*?)\t[0-9a-f]{16} (?:\.hidden )?(.*)$", line)
        if found:
            homes[found[2]] = found[1]
    return sizes, homes


# What each section refers to.
def references(sizes, homes):
    refers, here = {}, None
    for line in lines("-r"):
        if line.startswith("RELOCATION RECORDS FOR ["):
            here = line[24:-2]
            continue
        found = re.match(r"[0-9a-f]{16} R_\S+ +(.*?)(?:[-+]0x[0-9a-f]+)?$", line)
        if found and here:
            name = found[1]
            refers.setdefault(here, set()).add(name if name in sizes else homes.get(name, name))
    return refers


def reached(root, refers):
    seen, left = set(), [root]
    while left:
        name = left.pop()
        if name not in seen and not OTHERS.match(name):
            seen.add(name)
            left.extend(refers.get(name, ()))
    return seen


# Bytes that each function takes: its return address, what it pushes, and its frame.
def frames():
    frame, here = {}, None
    for line in lines("-d", "--no-show-raw-insn"):
        if line.startswith("Disassembly of section "):
            here = line[23:-1]
            frame[here] = 8
        elif re.search(r"\tpush ", line):
            frame[here] += 8
        else:
            found = re.search(r"\tsub +\$0x([0-9a-f]+),%rsp", line)
            frame[here] = frame.get(here, 8) + (int(found[1], 16) if found else 0)
    return frame


def deepest(name, refers, frame):
    below = [deepest(other, refers, frame) for other in refers.get(name, ()) if other.startswith(".text.") and other != name]
    return frame.get(name, 8) + max(below, default=0)


def main():
    sizes, homes = sections()
    refers = references(sizes, homes)
    print("| of the card | code, bytes | constants, bytes |\n|---|---|---|")
    both = set()
    for title, root in (("commands", COMMAND), ("loading and power on", LOADING)):
        new = reached(root, refers) - both
        both |= new
        code = sum(sizes.get(name, 0) for name in new if name.startswith(".text."))
        constants = sum(sizes.get(name, 0) for name in new if name.startswith(".rodata"))
        print("| %s | %d | %d |" % (title, code, constants))
    print("\nNo path of calls in a command takes more than %d bytes of stack." % deepest(COMMAND, refers, frames()))


main()
