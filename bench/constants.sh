#!/usr/bin/env bash
# Times `dangsan replay` on modules that print constants, and on texts of comments and blanks near the longest
# input, and prints time (the best of three runs) and the peak of memory. Doubling the input should at most
# take 2.3 times the time; the largest should stay below 2 s and 400 MB.
. "$(dirname "$0")/measure.sh"

# a module that prints so many constants
constants() {
    echo 'define void @main() {'
    awk -v n="$1" 'BEGIN { for (i = 0; i < n; i++) printf "  call void @print_i64(i64 %d)\n", (i * 7919) % 1000003 - 500000 }'
    echo '  ret void'
    echo '}'
    echo 'declare void @print_i64(i64)'
}

for count in 25000 50000 100000 199999; do
    constants "$count" >"$work/constants"
    measure "$count prints" "$work/constants" replay
done
for size in 1000000 2000000 4000000 8000000; do
    { constants 4; awk -v n="$size" 'BEGIN { for (i = 0; i < n / 100; i++) printf "; %96s\n", "a comment that fills the line" }'; } >"$work/comments"
    measure "comments" "$work/comments" replay
done
for size in 1000000 2000000 4000000 8000000; do
    { constants 4; head -c "$size" /dev/zero | tr '\0' ' '; } >"$work/blanks"
    measure "blanks" "$work/blanks" replay
done
