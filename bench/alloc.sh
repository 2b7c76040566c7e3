#!/usr/bin/env bash
# Times `dangsan replay` on pairs of malloc and free: of one size; of all 15 sizes in turn, in 15 pages; and in a heap
# that is full but for one block, which each malloc finds last of all, in one page of 4 blocks and in 8 pages of 256.
# Prints time (the best of three runs), the peak of memory, units and units a second, from which the time of a run of
# two units is taken off, and how many times as long it took as half as many pairs, which should be at most 2.2. A unit
# is an instruction or a step. The script reckons the units of each run from the rules, and fails where the program
# does not end with them, or does with one less. It says, and does not fail, where twice as many pairs took longer.
. "$(dirname "$0")/measure.sh"

cat >"$work/alloc.py" <<'PYTHON'
"""usage: alloc.py PROGRAM FOLDER"""
import sys
from doubled import doubled

program, folder = sys.argv[1:]
SIZES = [2, 4, 6, 8, 12, 16, 24, 32, 48, 64, 96, 128, 192, 256, 512]
LARGEST = [8 * words - 1 for words in SIZES]
DECLARED = 'declare ptr @malloc(i64)\ndeclare void @free(ptr)\n'


class Heap:
    """The steps of mallocs and frees, by the rules: how many words each looks at or changes."""

    def __init__(self, pages):
        self.pages, self.steps = pages, 0
        self.classes, self.live, self.cursors = {}, set(), [(0, 0)] * len(SIZES)

    def places(self, size):
        """The pages at which it looks, each with the blocks there, in order."""
        blocks = 512 // SIZES[size]
        page, first = self.cursors[size]
        yield page, range(first, blocks)
        for behind in range(1, self.pages):
            yield (page + behind) % self.pages, range(blocks)
        if first > 0:
            yield page, range(first)

    def malloc(self, size):
        for page, blocks in self.places(size):
            self.steps += 1
            if page not in self.classes:
                self.classes[page] = size
                self.steps += 1
            if self.classes[page] != size:
                continue
            for block in blocks:
                self.steps += 1
                if (page, block) not in self.live:
                    self.steps += 1
                    self.live.add((page, block))
                    behind = block + 1 < 512 // SIZES[size]
                    self.cursors[size] = (page, block + 1) if behind else ((page + 1) % self.pages, 0)
                    return page, block
        return None

    def free(self, block):
        self.steps += 4
        self.live.remove(block)


def loop(pairs, before, inside, bytes):
    """A module with some code, and then a loop that mallocs and frees."""
    return f"""define void @main() {{
entry:
{before}  br label %next
next:
  %i = phi i64 [ 0, %entry ], [ %j, %next ]
{inside}  %p = call ptr @malloc(i64 {bytes})
  call void @free(ptr %p)
  %j = add i64 %i, 1
  %c = icmp ult i64 %j, {pairs}
  br i1 %c, label %next, label %done
done:
  ret void
}}
"""


def one_size(pairs):
    """Pairs of the least size: its module, its pages, its units."""
    heap = Heap(256)
    for _ in range(pairs):
        heap.free(heap.malloc(0))
    return loop(pairs, '', '', 15) + DECLARED, 256, 3 + 6 * pairs + heap.steps


def all_sizes(pairs):
    """Pairs of each size in turn, in as many pages."""
    heap = Heap(15)
    for pair in range(pairs):
        heap.free(heap.malloc(pair % 15))
    numbers = ', '.join(f'i64 {bytes}' for bytes in LARGEST)
    inside = '  %k = urem i64 %i, 15\n  %s = getelementptr i64, ptr @sizes, i64 %k\n  %n = load i64, ptr %s\n'
    table = f'@sizes = global [15 x i64] [ {numbers} ]\n'
    return table + loop(pairs, '', inside, '%n') + DECLARED, 15, 3 + 10 * pairs + heap.steps


FILL = """define ptr @fill() {
entry:
  %f = call ptr @malloc(i64 BYTES)
  br label %next
next:
  %p = call ptr @malloc(i64 BYTES)
  %z = icmp eq ptr %p, null
  br i1 %z, label %done, label %next
done:
  call void @free(ptr %f)
  ret ptr %f
}
"""


def full(pairs, size, pages):
    """Pairs in a heap that is filled but for its first block."""
    heap = Heap(pages)
    first, taken = heap.malloc(size), 1
    while heap.malloc(size) is not None:
        taken += 1
    heap.free(first)
    heap.free(heap.malloc(size))
    once = heap.steps
    heap.free(heap.malloc(size))
    each = heap.steps - once
    steps = once + (pairs - 1) * each
    text = FILL.replace('BYTES', str(LARGEST[size]))
    module = text + loop(pairs, '  call ptr @fill()\n', '', LARGEST[size]) + DECLARED
    # once: to begin, the call, two branches, the first malloc, the free and two returns; three for each further malloc
    return module, pages, 8 + 3 * taken + 6 * pairs + steps


def bench(label, made, least):
    """Runs a program with so many pairs, and three times twice as many."""
    doubled(program, folder, label, 'pairs', least, lambda pairs: (pairs, *made(pairs)))


bench('one size', one_size, 10000)
bench('15 sizes in turn', all_sizes, 10000)
bench('one block of 4 is free', lambda pairs: full(pairs, 11, 1), 10000)
bench('one block of 2,048 is free', lambda pairs: full(pairs, 0, 8), 100)
PYTHON
PYTHONPATH="$top/bench" PYTHONDONTWRITEBYTECODE=1 python3 "$work/alloc.py" "$top/crates/dangsan/out/dangsan" "$work"
