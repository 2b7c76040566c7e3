"""Runs of `dangsan replay` whose units are reckoned, each on twice as much as the one before."""
import os, resource, subprocess, sys, time


def timed(program, folder, module, pages, fuel, status, runs=3):
    """The seconds of the best of some runs, which should end with this status."""
    path = os.path.join(folder, 'input')
    open(path, 'w').write(module)
    words = [program, 'replay', '--pages', str(pages), '--fuel', str(fuel)]
    best = None
    for _ in range(runs):
        with open(path, 'rb') as given:
            began = time.perf_counter()
            ended = subprocess.run(words, stdin=given, stdout=subprocess.DEVNULL).returncode
            took = time.perf_counter() - began
        best = took if best is None else min(best, took)
        if ended != status:
            print(f'status {ended} in place of {status} with {fuel} units', file=sys.stderr)
            sys.exit(1)
    return best


def doubled(program, folder, label, what, least, made):
    """Runs the program for the least number, and three times for twice as many; made tells of a number how many of
    what these are, the module, the pages of its heap, and its units. Each run is made with a unit less too."""
    before = None
    for number in (least, 2 * least, 4 * least, 8 * least):
        count, module, pages, units = made(number)
        start = timed(program, folder, 'define void @main() { ret void }\n', pages, 2, 0)
        net = timed(program, folder, module, pages, units, 0) - start
        timed(program, folder, module, pages, units - 1, 9, 1)
        rate = f'{units / net:12,.0f}' if net > 0.001 else f'{"-":>12}'
        times = f'{net / before:6.2f} times' if before is not None and before > 0.001 else ''
        late = ', more than 2.2' if times and net > 2.2 * before else ''
        peak = resource.getrusage(resource.RUSAGE_CHILDREN).ru_maxrss / 1024
        print(f'{label:<32} {count:>8,} {what} {units:>10,} units {net:7.3f} s {peak:7.1f} MB'
              f' {rate} units a second {times}{late}')
        before = net
