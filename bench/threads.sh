#!/usr/bin/env bash
# Times `dangsan replay` on 1,600,000 units that one thread spends, and that 2, 4, 8 and 16 threads share, each in a loop that adds to a word of its own.
# Prints time (the best of five runs), the peak of memory, and nanoseconds a unit and bytes a step above a run of two units. The time of a unit with 16
# threads should be at most 1.3 times that with one. Steps are two of nine units. The script fails where a status is another one, or the output.
. "$(dirname "$0")/measure.sh"

cat >"$work/loops.py" <<'PYTHON'
"""Writes a module whose threads, main among them, spend about 1,600,000 units: usage: loops.py THREADS"""
import sys
threads = int(sys.argv[1])
print(f"""define void @loop(ptr %sum) {{
entry:
  br label %next
next:
  %i = phi i64 [ 0, %entry ], [ %j, %next ]
  %s = load i64, ptr %sum
  %n = add i64 %s, 1
  store i64 %n, ptr %sum
  %j = add i64 %i, 1
  %c = icmp ult i64 %j, {1600000 // threads // 9}
  br i1 %c, label %next, label %done
done:
  ret void
}}
define ptr @work(ptr %unused) {{
  %sum = alloca i64
  store i64 0, ptr %sum
  call void @loop(ptr %sum)
  ret ptr null
}}
declare i32 @pthread_create(ptr, ptr, ptr, ptr)
declare i32 @pthread_join(i64, ptr)
define i32 @main() {{
  %id = alloca i64""")
for t in range(1, threads):
    print(f'  %a{t} = call i32 @pthread_create(ptr %id, ptr null, ptr @work, ptr null)')
print('  %own = call ptr @work(ptr null)')
for t in range(1, threads):
    print(f'  %b{t} = call i32 @pthread_join(i64 {t}, ptr null)')
print('  ret i32 0\n}')
PYTHON

cat >"$work/time.py" <<'PYTHON'
"""Times replay: usage: time.py PROGRAM INPUT THREADS START (the file with the seconds and megabytes of a run of two units, which is made if missing)"""
import os, resource, subprocess, sys, time
program, given, threads, start = sys.argv[1:]
took = []
for _ in range(5):
    with open(given, 'rb') as source:
        began = time.perf_counter()
        ended = subprocess.run([program, 'replay', '--fuel', '2000000'], stdin=source, capture_output=True)
        took.append(time.perf_counter() - began)
best, peak = min(took), resource.getrusage(resource.RUSAGE_CHILDREN).ru_maxrss / 1024
if not os.path.exists(start):
    open(start, 'w').write(f'{best} {peak}')
    print(f'two units: {best:.3f} s, {peak:.1f} MB')
else:
    seconds, space = map(float, open(start).read().split())
    print(f'{threads:>2} threads {best:7.3f} s {peak:7.1f} MB {(best - seconds) / 1.6e-3:6.1f} ns a unit {(peak - space) * 2**20 / (1.6e6 * 2 / 9):6.1f} bytes a step')
wanted = b'main returned 0; prints 0 mallocs 0 frees 0 notes 0 marks 0 traps 0\n'
sys.exit(ended.returncode != 0 or ended.stdout != wanted)
PYTHON

# usage: threads NUMBER
threads() {
    python3 "$work/loops.py" "$1" >"$work/input"
    python3 "$work/time.py" "$top/crates/dangsan/out/dangsan" "$work/input" "$1" "$work/start" || failed=1
}

printf 'define i32 @main() {\n  ret i32 0\n}\n' >"$work/input"
python3 "$work/time.py" "$top/crates/dangsan/out/dangsan" "$work/input" 1 "$work/start" || failed=1
for number in 1 2 4 8 16; do
    threads "$number"
done
exit "$failed"
