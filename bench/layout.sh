#!/usr/bin/env bash
# Times `dangsan check` on modules of many struct types: flat ones, chains in both orders, structs that hold the one before twice, wide ones, and
# hostile ones with cycles, which are refused. Doubling the input should at most take 2.3 times the time, whatever stack the program has.
# The script fails where a status or a line is another one.
. "$(dirname "$0")/measure.sh"

cat >"$work/generate.py" <<'PYTHON'
import sys
kind, count = sys.argv[1], int(sys.argv[2])
MAIN = '\ndefine i32 @main() {\n  ret i32 0\n}'

def joined(form, count, between='\n'):
    return between.join(form.format(n=i, m=i + 1) for i in range(count))

MAKERS = {
    'flat': lambda n: joined('%s{n} = type {{ i8, i32, ptr }}', n) + '\n@g = global %s0 zeroinitializer' + MAIN,
    'rising': lambda n: '%s0 = type { i8 }\n' + joined('%s{m} = type {{ %s{n}, i64 }}', n) + '\n@g = global ptr null' + MAIN,
    'falling': lambda n: joined('%s{n} = type {{ %s{m}, i64 }}', n) + f'\n%s{n} = type {{ i8 }}' + MAIN,
    'doubled': lambda n: '%s0 = type { i8 }\n' + joined('%s{m} = type {{ %s{n}, %s{n} }}', n) + MAIN,
    'wide': lambda n: f'%s = type {{ {joined("i8", n, ", ")} }}' + MAIN,
    'between': lambda n: joined('%s{n} = type {{ %s{m} }}', n) + f'\n%s{n} = type {{ %s{n} }}' + MAIN,
    'cycles': lambda n: '%a = type { %b }\n' + joined('%s{n} = type {{ %s{m} }}', n) + f'\n%s{n} = type {{ %b }}\n%b = type {{ %b }}' + MAIN,
    'ring': lambda n: joined('%s{n} = type {{ %s{m} }}', n) + f'\n%s{n} = type {{ %s0 }}' + MAIN,
}
print(MAKERS[kind](count))
PYTHON

while read -r kind status line; do
    for count in 12500 25000 50000 100000; do
        python3 "$work/generate.py" "$kind" "$count" >"$work/input"
        timed "$count $kind" check "$status"
        (ulimit -s 200; "$top/crates/dangsan/out/dangsan" check <"$work/input" >"$work/out" || true)
        grep -qx "$(echo "$line" | sed "s/COUNT/$count/")" "$work/out" || failed=1
    done
done <<'INPUTS'
flat 0 accepted: functions 1 instructions 1
rising 0 accepted: functions 1 instructions 1
falling 0 accepted: functions 1 instructions 1
doubled 1 error: too large %s33
wide 0 accepted: functions 1 instructions 1
between 1 error: recursive type %sCOUNT
cycles 1 error: recursive type %b
ring 1 error: recursive type %s0
INPUTS
exit "$failed"
