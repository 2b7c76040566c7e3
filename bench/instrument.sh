#!/usr/bin/env bash
# Times `instrument` beside `check` on modules as `clang -O0` writes them, of about 1, 2, 4 and 8 MB. Adding the notes and writing the module should take
# no more than half the time of `check`, and doubling the input at most 2.3 times as long. The script fails where a status is another one.
. "$(dirname "$0")/measure.sh"
for functions in 90 180 360 720; do
    python3 "$top/bench/clang_module.py" "$functions" >"$work/input"
    timed "check, $functions functions" check 0
    timed "instrument, $functions" instrument 0
done
exit "$failed"
