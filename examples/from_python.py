"""Ada's folder lets its creator owner read, and so on below; Ben puts a plan into it. Who may open the plan, before the crew is let in
from level 3 on, and after? A list with an entry of a wrong type is refused; an undo brings back what was."""
import struct
import pipeteasel

READ = 1
OPEN = bytes.fromhex("02 00 1C 00 01 00 00 00"               # one entry:
                     "00 03 14 00 00 00 00 80"               # allow, for all below, generic read
                     "01 01 00 00 00 00 00 03 00 00 00 00")  # to S-1-3-0, creator owner


def sid(*numbers):  # S-1-5-...
    return struct.pack(f"<BB5xB{len(numbers)}I", 1, len(numbers), 5, *numbers)


def show(when):
    plans = tree.list(plan)
    print(f"{when}: {len(plans)} bytes, {pipeteasel.read(plans).count} entries, {tree.counts().steps} kept steps")
    for name, held, level in ("Ada", [ADA], 1), ("Ben", [BEN, CREW], 2), ("Cleo", [CLEO, CREW], 3):
        print(f"  {name} reads, level {level}:", pipeteasel.may_open(plans, held, READ, table={"level": level}))


ADA, BEN, CLEO, CREW = sid(21, 7), sid(21, 8), sid(21, 9), sid(80)
tree = pipeteasel.Tree(objects=16, steps=16)
folder = tree.add(None, owner=ADA, group=CREW, list=OPEN, container=True).object
plan = tree.add(folder, owner=BEN, group=CREW).object
show("Ben's plan in Ada's folder")

condition = pipeteasel.condition("level>=3").form + bytes(1)  # 31 bytes, and in an entry a zero up to a multiple of four
entry = struct.pack("<BBHI", 9, 0, 8 + len(CREW) + len(condition), READ) + CREW + condition
tree.set_list(plan, struct.pack("<BBHHH", 2, 0, 8 + len(entry), 1, 0) + entry)
show("the crew from level 3 on")
try:
    tree.set_list(plan, OPEN[:8] + b"\x05" + OPEN[9:])  # an object entry, which revision 2 doesn't know
except pipeteasel.Refused as refused:
    print(f"refused by {refused.number}, list {refused.list}, offset {refused.offset}")
tree.undo()
show("undone")
