#!/usr/bin/env bash
# Times `dangsan replay` on programs of examples/programs/ at sizes that need nearly 2,000,000 units, with a fuel of 250,000, 500,000, 1,000,000 and
# 2,000,000 units, beside the interpreter of LLVM where lli is at hand. Prints time (the best of three runs), the peak of memory, and units a second,
# from which the time of a run of two units is taken off; a unit is an instruction, load, store or print. Doubling the fuel should at most take 2.2 times
# the time, and the most 2 s. The script fails where a status or an output is another one. It needs clang-16, which makes the modules. Without
# --jit-kind=mcjit lli takes no notice of --force-interpreter: it compiles.
. "$(dirname "$0")/measure.sh"
command -v clang-16 >/dev/null || {
    echo "replay.sh: clang-16 is missing" >&2
    exit 1
}
lli=$(command -v lli-16 || command -v lli || true)

# Makes a module of an example at another size.
# usage: larger NAME EDIT (of sed)
larger() {
    sed "$2" "$top/examples/programs/$1.c" >"$work/$1.c"
    cmp -s "$work/$1.c" "$top/examples/programs/$1.c" && {
        echo "replay.sh: the size of $1 was not found" >&2
        exit 1
    }
    clang-16 -S -emit-llvm -O0 -ffreestanding -fno-stack-protector -Xclang -disable-O0-optnone -o "$work/$1.ll" "$work/$1.c"
}

cat >"$work/time.py" <<'PYTHON'
"""Times a command on an input: usage: time.py LABEL INPUT OUTPUT STATUS UNITS START COMMAND.. (START: the file with the seconds of a run of two units)"""
import os, resource, subprocess, sys, time
label, given, output, status, units, start, *command = sys.argv[1:]
took = []
for _ in range(3):
    with open(given, 'rb') as source, open(output, 'wb') as sink:
        began = time.perf_counter()
        ended = subprocess.run(command, stdin=source, stdout=sink).returncode
        took.append(time.perf_counter() - began)
best = min(took)
if not os.path.exists(start):
    open(start, 'w').write(str(best))
net = best - float(open(start).read())
rate = f'{int(units) / net:12,.0f}' if net > 0.001 else '           -'
peak = resource.getrusage(resource.RUSAGE_CHILDREN).ru_maxrss / 1024
print(f'{label:<24} {int(units):>10,} units {best:7.3f} s {peak:7.1f} MB {rate} units a second  status {ended}')
sys.exit(ended != int(status))
PYTHON

# usage: replayed LABEL INPUT STATUS UNITS FUEL
replayed() {
    python3 "$work/time.py" "$1" "$2" "$work/output" "$3" "$4" "$work/start" "$top/crates/dangsan/out/dangsan" replay --fuel "$5" || failed=1
}

# Runs a program at each fuel, and by lli.
# usage: program NAME UNITS EDIT (the units are those that the whole program needs)
program() {
    larger "$1" "$3"
    for fuel in 250000 500000 1000000; do
        replayed "$1" "$work/$1.ll" 9 "$fuel" "$fuel"
    done
    replayed "$1" "$work/$1.ll" 0 "$2" 2000000
    [ -n "$lli" ] || return 0
    rm -f "$work/lli_start"
    python3 "$work/time.py" "lli, nothing" /dev/null "$work/wanted" 0 2 "$work/lli_start" "$lli" --force-interpreter --jit-kind=mcjit --load="$work/print.so" "$work/nothing.ll" >"$work/line" || failed=1
    python3 "$work/time.py" "$1, lli" /dev/null "$work/wanted" 0 "$2" "$work/lli_start" "$lli" --force-interpreter --jit-kind=mcjit --load="$work/print.so" "$work/$1.ll" || failed=1
    head -n -1 "$work/output" | cmp - "$work/wanted" || failed=1
}

printf '#include <stdio.h>\nvoid print_i64(long v) { printf("%%ld\\n", v); }\n' >"$work/print.c"
clang-16 -shared -fPIC -o "$work/print.so" "$work/print.c" || lli=
printf 'define i32 @main() {\n  ret i32 0\n}\ndeclare void @print_i64(i64)\n' >"$work/nothing.ll"
replayed "two units" "$work/nothing.ll" 0 2 2
program machine 1998442 's/PUSH, 100, STORE, 0/PUSH, 1555, STORE, 0/'
program sorts 1991002 's/COUNT = 40/COUNT = 266/'
program matrix 1887781 's/SIZE = 8/SIZE = 34/'
program queens 1854671 's/MOST = 6/MOST = 7/; s/rows = 1; rows <= MOST; rows++/rows = 0; rows < 5; rows++/; s/ways(&board, rows)/ways(\&board, 6 + rows % 2)/'
program hash 1983762 's/i < 300/i < 15900/'
exit "$failed"
