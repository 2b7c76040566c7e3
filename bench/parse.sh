#!/usr/bin/env bash
# Times `dangsan instrument` on LLVM IR as `clang -O0` prints it, of about 1, 2, 4 and 8 MB, on modules that have much of one thing,
# and on hostile ones near the longest input of 8,388,608 bytes. Prints time (the best of three runs) and the peak of memory. Doubling
# the input should at most take 2.3 times the time; each should stay below 5 s on one core and 3 GB. Those that have more than a module may
# have, or no main, are read and then refused with status 1.
# The script fails where a status is another one, or where the canonical text of a canonical text is not the same text.
. "$(dirname "$0")/measure.sh"

cat >"$work/generate.py" <<'PYTHON'
import sys
kind, count = sys.argv[1], int(sys.argv[2])

MAIN = 'define i32 @main() {\n%s\n  ret i32 0\n}'

def joined(form, count, between='\n'):
    return between.join(form.format(n=i, m=i + 1) for i in range(count))

EIGHT = '  %a{n} = add i64 {n}, 1\n  %b{n} = mul i64 %a{n}, 3\n  store i64 %b{n}, ptr @g\n  %c{n} = load i64, ptr @g\n' \
    '  %d{n} = icmp ult i64 %c{n}, 7\n  %e{n} = select i1 %d{n}, i64 %c{n}, i64 0\n  br label %"after {n}"\n' \
    '"after {n}":\n  call void @print_i64(i64 %e{n})'
NEST = '[1 x ' * 32 + 'i64' + ']' * 32
MAKERS = {
    'instructions': lambda n: '@g = global i64 0\n' + MAIN % joined(EIGHT, n // 8) + '\ndeclare void @print_i64(i64)',
    'functions': lambda n: joined('define i64 @f{n}(i64 noundef %0) {{\n  %2 = add nsw i64 %0, {n}\n  ret i64 %2\n}}', n) + MAIN % '',
    'words': lambda n: joined('@g{n} = global i64 {n}', n // 2)
        + f'\n@a = global [{n // 2} x i64] [{joined("i64 {n}", n // 2, ", ")}]\n' + MAIN % '',
    'arms': lambda n: MAIN % ('  br label %b0\n' + joined('b{n}:\n  br i1 false, label %end, label %b{m}', n)
        + f'\nb{n}:\n  br label %end\nend:\n  %v = phi i64 {joined("[ {n}, %b{n} ]", n + 1, ", ")}'),
    'cases': lambda n: MAIN % f'  switch i32 7, label %end [\n{joined("    i32 {n}, label %end", n)}\n  ]\nend:',
    'structs': lambda n: joined('%s{n} = type {{ i64, ptr }}', n) + '\n' + joined('@g{n} = global %s{n} {{ i64 {n}, ptr null }}', n),
    'fields': lambda n: f'%s = type {{ {joined("i8", n, ", ")} }}\n' + joined('@g{n} = global %s {{ i8 1, i8 2 }}', n // 20),
    'elements': lambda n: f'%s = type {{ {joined("i8", n, ", ")} }}\n@g = global %s {{ {joined("i8 1", n, ", ")} }}',
    'nests': lambda n: joined(f'@g{{n}} = global {NEST} zeroinitializer', n),
    'values': lambda n: joined(f'@g{{n}} = global {NEST} '
        + ''.join(f'[{"[1 x " * d}i64{"]" * d} ' for d in range(31, -1, -1)) + '1' + ']' * 32, n),
    'metadata': lambda n: '!0 = !{' + '!{' * n + '}' * n + '}',
    'brackets': lambda n: 'attributes #0 = {' + '(' * n + ')' * n + '}',
    'text': lambda n: f'@s = constant [{n} x i8] c"{"text" * (n // 4)}"',
    'parameters': lambda n: f'define void @f({joined("i8 noundef", n, ", ")}) {{\n  ret void\n}}',
    'arguments': lambda n: MAIN % f'  call void @f({joined("i8 noundef 1", n, ", ")})',
    'unnamed': lambda n: MAIN % joined('  add i64 1, 2', n),
    'returns': lambda n: 'define void @f() {' + 'ret void ' * n + '}',
    'attributes': lambda n: f'define {"noundef dereferenceable(8) " * n}void @f() {{\n  ret void\n}}',
    'tails': lambda n: MAIN % ('  fence seq_cst' + ', align 8, !dbg !1' * n),
}
print(MAKERS[kind](count))
PYTHON

for count in 94 188 376 752; do
    python3 "$top/bench/clang_module.py" "$count" >"$work/input"
    timed "$count module" instrument 0
done
"$top/crates/dangsan/out/dangsan" instrument <"$work/input" >"$work/once" || failed=1
"$top/crates/dangsan/out/dangsan" instrument <"$work/once" | cmp - "$work/once" || failed=1
while read -r kind status counts; do
    for count in $counts; do
        python3 "$work/generate.py" "$kind" "$count" >"$work/input"
        timed "$count $kind" instrument "$status"
    done
done <<'INPUTS'
instructions 0 25000 50000 100000 199992
functions 0 125 250 500 1000
words 0 1024 2048 4096
arms 0 2500 5000 10000
cases 0 2500 5000 10000
structs 1 25000 50000 100000
fields 1 250000 500000 1000000
elements 1 200000 400000 800000
nests 1 9000 18000 36000
values 1 500 1000 2000
metadata 1 500000 1000000 2000000
brackets 1 1000000 2000000 4000000
text 1 1000000 2000000 4000000 8000000
parameters 1 75000 150000 300000 600000
arguments 1 75000 150000 300000 500000
unnamed 0 50000 100000 199998
returns 1 225000 450000 900000
attributes 1 75000 150000 300000
tails 0 110000 220000 440000
INPUTS
exit "$failed"
