#!/usr/bin/env bash
# Times `dangsan replay` on modules of loads, stores and prints: 25, 50 and 100 per cent of the most that the form
# allows (200,000 instructions with 65,536 loads). Prints time (the best of three runs) and the peak of memory.
# Doubling the input should at most take 2.3 times the time; the largest should stay below 2 s and 600 MB.
. "$(dirname "$0")/measure.sh"

# a module with so many globals, loads and instructions in all, the return counted
words() {
    awk -v globals="$1" -v loads="$2" -v all="$3" 'BEGIN {
        for (g = 0; g < globals; g++) printf "@g%d = global i64 %d\n", g, g
        print "define void @main() {"
        for (i = 0; i < all - 1; i++) {
            if (i % 3 == 0 && l < loads) { printf "  %%v%d = load i64, ptr @g%d\n", l, (i * 7919) % globals; l++ }
            else if (i % 3 == 1) printf "  store i64 %%v%d, ptr @g%d\n", (i * 31) % l, (i * 104729) % globals
            else printf "  call void @print_i64(i64 %%v%d)\n", (i * 17) % l
        }
        print "  ret void\n}\ndeclare void @print_i64(i64)"
    }'
}

for part in 25 50 100; do
    words $((4096 * part / 100)) $((65536 * part / 100)) $((200000 * part / 100)) >"$work/words"
    measure "$part per cent" "$work/words" replay
done
