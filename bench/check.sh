#!/usr/bin/env bash
# Times `dangsan check` on LLVM IR as `clang -O0` prints it, of about 1, 2, 4 and 8 MB, on functions with many instructions in few and many blocks, on many
# functions, on phis and switches with 10,000 arms, on a long chain of blocks with one common exit, and on dense meshes of loops. Doubling the input
# should at most take 2.5 times the time; each should stay below 8 s on one core and 3 GB, and end with status 0. The script fails where a status is
# another one.
. "$(dirname "$0")/measure.sh"

cat >"$work/generate.py" <<'PYTHON'
import sys
kind, count = sys.argv[1], int(sys.argv[2])
PRINT = '\ndeclare void @print_i64(i64)'

def joined(form, count, between='\n'):
    return between.join(form.format(n=i, m=i + 1) for i in range(count))

def main(body):
    return 'define i32 @main() {\n' + body + '\n  ret i32 0\n}' + PRINT

def blocks(count, each):
    """So many blocks in a row, each of so many instructions that use the value before."""
    lines, last = ['  %v0 = add i64 0, 1'], 0
    for b in range(count):
        lines += [f'  br label %b{b}', f'b{b}:']
        for _ in range(each):
            lines.append(f'  %v{last + 1} = add i64 %v{last}, {b}')
            last += 1
    return main('\n'.join(lines))

def mesh(count):
    """Blocks of which each leads to four others, most of them back."""
    lines = ['  br label %b0']
    for b in range(count):
        to = [(b + 1) % count, (b * 7 + 3) % count, (b * 13 + 5) % count, b // 2]
        lines += [f'b{b}:', f'  %v{b} = add i64 {b}, 1', f'  switch i64 %v{b}, label %b{to[0]} [ i64 1, label %b{to[1]} i64 2, label %b{to[2]} i64 3, label %b{to[3]} i64 4, label %end ]']
    return main('\n'.join(lines + ['end:']))

MAKERS = {
    'one_block': lambda n: main('  %v0 = add i64 0, 1\n' + joined('  %v{m} = add i64 %v{n}, {n}', n)),
    'thousand': lambda n: blocks(1000, n // 1000),
    'many_blocks': lambda n: blocks(n, 2),
    'functions': lambda n: joined('define i64 @f{n}(i64 %a) {{\n  %b = add i64 %a, {n}\n  ret i64 %b\n}}', n) + '\n' + main('  %v = call i64 @f0(i64 1)'),
    'arms': lambda n: main('  br label %b0\n' + joined('b{n}:\n  br i1 false, label %end, label %b{m}', n)
        + f'\nb{n}:\n  br label %end\nend:\n  %v = phi i64 {joined("[ {n}, %b{n} ]", n + 1, ", ")}'),
    'cases': lambda n: main(f'  switch i32 7, label %end [\n{joined("    i32 {n}, label %end", n)}\n  ]\nend:'),
    'exit': lambda n: main('  %x = add i64 1, 2\n  br label %b0\n' + joined('b{n}:\n  br i1 false, label %end, label %b{m}', n) + f'\nb{n}:\n  br label %end\nend:\n  call void @print_i64(i64 %x)'),
    'mesh': mesh,
}
print(MAKERS[kind](count))
PYTHON

for count in 94 188 376 752; do
    python3 "$top/bench/clang_module.py" "$count" >"$work/input"
    timed "$count module" check 0
done
while read -r kind counts; do
    for count in $counts; do
        python3 "$work/generate.py" "$kind" "$count" >"$work/input"
        timed "$count $kind" check 0
    done
done <<'INPUTS'
one_block 25000 50000 100000 199990
thousand 50000 100000 190000
many_blocks 7500 15000 30000 60000
functions 128 256 512 1022
arms 2500 5000 10000
cases 2500 5000 10000
exit 12500 25000 50000 99000
mesh 500 1000 2000
INPUTS
exit "$failed"
