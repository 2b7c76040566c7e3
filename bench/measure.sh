# For the scripts beside it, which begin with it: builds the program where it is missing or older than its sources,
# and makes the folder "$work" for their inputs, which is removed as they end.
set -eu
top=$(cd "$(dirname "$0")/.." && pwd)
work=$(mktemp -d)
trap 'rm -rf "$work"' EXIT
"$top/dangsan" replay <"$top/examples/constants.ll" >/dev/null

# Runs the program on an input, and prints the input's size, the time (the best of three runs) and the peak of memory.
# usage: measure LABEL INPUT WORD.. (the words are the program's job)
measure() {
    label=$1
    input=$2
    shift 2
    python3 - "$label" "$input" "$top/crates/dangsan/out/dangsan" "$@" <<'PYTHON'
import os, resource, subprocess, sys, time
label, path, command = sys.argv[1], sys.argv[2], sys.argv[3:]
best = None
for _ in range(3):
    with open(path, "rb") as given, open(os.devnull, "wb") as sunk:
        began = time.perf_counter()
        status = subprocess.run(command, stdin=given, stdout=sunk).returncode
        took = time.perf_counter() - began
    best = took if best is None else min(best, took)
peak = resource.getrusage(resource.RUSAGE_CHILDREN).ru_maxrss / 1024
print(f"{label:<28} {os.path.getsize(path):>9} bytes  {best:7.3f} s  {peak:7.1f} MB  status {status}")
PYTHON
}

# Measures the input "$work/input" with a job that should end with this status; where it ends with another, failed is 1 from then on.
# usage: timed LABEL WORD STATUS
failed=0
timed() {
    measure "$1" "$work/input" "$2" | tee "$work/line"
    grep -q "status $3\$" "$work/line" || failed=1
}
