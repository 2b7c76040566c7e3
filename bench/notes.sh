#!/usr/bin/env bash
# Times `dangsan replay` on pointer stores and their notes: 14 stores into each block, at one address or at 14, of one
# block that is given again and again, or of blocks side by side.
# Prints time (the best of three runs), the peak of memory, units and units a second, from which the time of a run of
# two units is taken off, and how many times as long it took as half as many stores, which should be at most 2.2. A
# unit is an instruction or a step. The script reckons the units of each run from the rules, and fails where the program
# does not end with them, or does with one less. It says, and does not fail, where twice as many stores took longer.
. "$(dirname "$0")/measure.sh"

cat >"$work/notes.py" <<'PYTHON'
"""usage: notes.py PROGRAM FOLDER"""
import sys
from doubled import doubled

program, folder = sys.argv[1:]
STORES = 14  # the entries of a log
STORE, FREE, MALLOC, LOOP = 2, 5, 4, 4  # units of each; the loop's rest is the last
ASSIGN = 1  # one step more where the page has none yet
NEW_LOG, NEW_LIFE, LATER = 9, 8, 7  # units of a note: the first for a place, the first for a life, each other


def module(blocks, bytes, addresses):
    """A module that takes a block, stores pointers to it and frees it, so many times."""
    stores = ''
    for number in range(STORES):
        at = f'%s{number}' if addresses > 1 else '@addresses'
        if addresses > 1:
            stores += f'  {at} = getelementptr [{STORES} x ptr], ptr @addresses, i64 0, i64 {number}\n'
        stores += f'  store ptr %p, ptr {at}\n'
    return f"""@addresses = global [{STORES} x ptr] zeroinitializer
define void @main() {{
entry:
  br label %next
next:
  %i = phi i64 [ 0, %entry ], [ %j, %next ]
  %p = call ptr @malloc(i64 {bytes})
{stores}  call void @free(ptr %p)
  %j = add i64 %i, 1
  %c = icmp ult i64 %j, {blocks}
  br i1 %c, label %next, label %done
done:
  ret void
}}
declare ptr @malloc(i64)
declare void @free(ptr)
"""


def units_of(blocks, new_places, new_pages, addresses):
    """What a run costs: to begin, to enter the loop, and to return cost a unit each."""
    stores = STORES * (STORE + (1 if addresses > 1 else 0)) + (STORES - 1) * LATER
    once = MALLOC + stores + FREE + LOOP
    return 3 + blocks * once + new_pages * ASSIGN + new_places * NEW_LOG + (blocks - new_places) * NEW_LIFE


def one_block(blocks, addresses):
    """One block, which fills its page, and so the heap."""
    return module(blocks, 4000, addresses), 1, units_of(blocks, 1, 1, addresses)


def side_by_side(blocks, addresses):
    """Blocks of the least size, each behind the one before."""
    return module(blocks, 8, addresses), 256, units_of(blocks, blocks, -(-blocks // 256), addresses)


def bench(label, made, addresses):
    """Runs a program with 1,000 blocks, and three times twice as many: 14,000 to 112,000 stores."""
    doubled(program, folder, label, 'stores', 1000, lambda blocks: (STORES * blocks, *made(blocks, addresses)))


bench('one block, one address', one_block, 1)
bench('one block, 14 addresses', one_block, STORES)
bench('blocks side by side, one address', side_by_side, 1)
bench('blocks side by side, 14 addresses', side_by_side, STORES)
PYTHON
PYTHONPATH="$top/bench" PYTHONDONTWRITEBYTECODE=1 python3 "$work/notes.py" "$top/crates/dangsan/out/dangsan" "$work"
