#!/usr/bin/env bash
# Times lowering and a thread's own instructions. First `replay --fuel 1` beside `check` on modules of 1 to 8 MB: it
# reads, checks and lowers the module, and main then makes one step; the time of that on the least module is taken
# off. Lowering should take at most twice the time of `check`, and doubling the input at most 2.3 times. Then loops
# with few steps on memory, of arithmetic, branches with phis, and calls, with a fuel of 2,000,000 units: at least 20
# million units a second. Prints the best of three runs; the script fails where a status is another one.
. "$(dirname "$0")/measure.sh"
cat >"$work/lower.py" <<'PYTHON'
"""Times the program: usage: lower.py PROGRAM"""
import re, subprocess, sys, time
program = sys.argv[1]
failed = False

FUNCTION = '''define i64 @f%d(i64 %%a, ptr %%p) {
%s  ret i64 %%a
}
'''
LINES = '''  %%r%d = load i64, ptr %%p
  %%s%d = add nsw i64 %%r%d, %d
  %%t%d = mul nsw i64 %%s%d, 3
  %%u%d = getelementptr inbounds [8 x i64], ptr %%p, i64 0, i64 %%t%d
  %%v%d = icmp slt i64 %%s%d, %%t%d
  %%w%d = select i1 %%v%d, i64 %%s%d, i64 %%t%d
  store i64 %%w%d, ptr %%p
'''

def module(functions):
    """A module of so many functions, each with 1,981 instructions."""
    body = ''.join(LINES % ((n,) * LINES.count('%d')) for n in range(282))
    text = ''.join(FUNCTION % (n, body) for n in range(functions))
    return (text + 'define void @main() { ret void }\n').encode()

def timed(text, status, *words):
    """The least seconds of three runs."""
    global failed
    best = None
    for _ in range(3):
        began = time.perf_counter()
        ended = subprocess.run([program, *words], input=text, stdout=subprocess.DEVNULL).returncode
        took = time.perf_counter() - began
        best = took if best is None else min(best, took)
        if ended != status:
            failed = True
            print(f'WRONG: status {ended}, not {status}')
    return best

START = timed(module(0), 9, 'replay', '--fuel', '1')
before = None
for functions in 12, 24, 48, 96:
    text = module(functions)
    check = timed(text, 0, 'check')
    lower = timed(text, 9, 'replay', '--fuel', '1') - START
    double = '' if before is None else f', {lower / before:4.2f} times the one before'
    before = lower
    print(f'{len(text):>9,} bytes: check {check:6.3f} s, with lowering {lower:6.3f} s, {lower / check:4.2f} times{double}',
        flush=True)

LOOP = '''define void @main() {
  %a = alloca i64
  br label %l
l:
  %i = phi i64 [ 0, %0 ], [ %j, %e ]
  %j = add i64 %i, 1
BODY
  br label %e
e:
  br label %l
}
define i64 @f(i64 %a, i64 %b) {
  %c = add i64 %a, %b
  %d = call i64 @g(i64 %c)
  ret i64 %d
}
define i64 @g(i64 %a) {
  %b = mul i64 %a, 5
  ret i64 %b
}
'''
EACH = '''  %aN = add i64 %i, N
  %bN = mul i64 %aN, 3
  %cN = xor i64 %bN, %j
  %dN = icmp slt i64 %cN, %aN
  %eN = select i1 %dN, i64 %cN, i64 %bN
  %fN = trunc i64 %eN to i16
  %gN = zext i16 %fN to i64
  %hN = getelementptr [4 x i64], ptr %a, i64 %gN, i64 2
  %kN = lshr i64 %cN, 5
  %mN = udiv i64 %kN, 7'''
BRANCHES = '''  br label %d
d:
  %u = phi i64 [ %i, %l ], [ %v, %d2 ]
  %v = phi i64 [ %j, %l ], [ %u, %d2 ]
  %n = phi i64 [ 0, %l ], [ %m, %d2 ]
  %m = add i64 %n, 1
  %z = icmp eq i64 %m, 8
  br i1 %z, label %y, label %d2
d2:
  br label %d
y:'''
ASK = '  %xN = load i64, ptr %a\n  store i64 %xN, ptr %a'
repeated = lambda form, times: '\n'.join(re.sub(r'N\b', str(n), form) for n in range(times))
LOOPS = {
    'arithmetic': repeated(EACH, 10),
    'branches': BRANCHES,
    'calls': repeated('  %cN = call i64 @f(i64 %i, i64 N)', 10),
    'loads and stores': repeated(ASK, 10),
}
for name, body in LOOPS.items():
    took = timed(LOOP.replace('BODY', body).encode(), 9, 'replay', '--fuel', '2000000') - START
    print(f'{name:<18} 2,000,000 units {took:6.3f} s {2 / took:7.1f} million units a second', flush=True)
sys.exit(failed)
PYTHON
python3 "$work/lower.py" "$top/crates/dangsan/out/dangsan"
