# Run by gdb on the program `measure`: paints the stack below each command to the card, and prints how far down it was written.
import gdb

ROOM = 24576
PAINT = b"\xa5"
ASSOCIATIONS = {1: "establishing a master", 2: "establishing a connection", 3: "starting a session"}


def number(memory):
    return int.from_bytes(bytes(memory), "little")


def register(name):
    return int(gdb.parse_and_eval("(unsigned long)$" + name))


# What a command does, by its header.
def kind(apdu):
    ins, p1, p2 = apdu[1], apdu[2], apdu[3]
    if ins == 0x75:
        return "fetching a fare's answer" if p1 % 4 == 1 else "a fare's block"
    return ASSOCIATIONS[p1] if p2 == 0x80 else "fetching a reply"


# The bytes from the return address of the call down to the deepest one that it wrote.
def depth(process):
    top = register("rsp")
    process.write_memory(top - ROOM, PAINT * ROOM)
    gdb.Breakpoint("*%d" % number(process.read_memory(top, 8)), internal=True, temporary=True)
    gdb.execute("continue", to_string=True)
    area = bytes(process.read_memory(top - ROOM, ROOM))
    return len(area.lstrip(PAINT)) + 8


def main():
    gdb.execute("set pagination off")
    gdb.Breakpoint("measure::bench_card::send", internal=True)
    gdb.execute("run 1 > /dev/null", to_string=True)
    process, deepest = gdb.selected_inferior(), {}
    while process.threads():
        # The result goes through a pointer in front, so the APDU's bytes are the third argument.
        apdu = process.read_memory(register("rdx"), 4)
        name = kind([b[0] for b in apdu])
        deepest[name] = max(deepest.get(name, 0), depth(process))
        gdb.execute("continue", to_string=True)
    print("| deepest stack of a command | bytes |\n|---|---|")
    for name, bytes_ in sorted(deepest.items(), key=lambda item: -item[1]):
        print("| %s | %d |" % (name, bytes_))


main()
