#!/usr/bin/env python3
"""A model of `dangsan replay`, written from the rules in docs/FORMATS.md and not from the program.

    model.py [--seed N] [--pages N] [--fuel N] [--logs N] [--visits 1] < MODULE

prints the report and ends with the status. It takes accepted modules alone, and says nothing of what is refused. The
lines that the cases want of runs are compared with it, so that they come from a second hand. With `--visits 1` a free
visits the locations in the logs of its block, as it is to do and does not yet; the model then fails where a plain list
of notes, kept beside the logs, says that a free visits what was not noted or ends too early.
"""
import sys

from module_text import BINARY, CASTS, GLOBALS, Module, spelling

HEAP, STACKS = 0x1000000, 0x100000
CLASS_WORDS = [2, 4, 6, 8, 12, 16, 24, 32, 48, 64, 96, 128, 192, 256, 512]
MARK = 1 << 63
M64 = (1 << 64) - 1


def width(ty):
    return {'i1': 1, 'i8': 8, 'i16': 16, 'i32': 32, 'i64': 64, 'ptr': 64}[ty]


def signed(v, w):
    return v - (1 << w) if v >> (w - 1) & 1 else v


class OutOfFuel(Exception):
    pass


class Trap(Exception):
    pass


class Full(Exception):
    pass


class Machine:
    def __init__(self, module, seed=0, pages=256, fuel=1000000, logs=65536, visits=False):
        self.m, self.seed, self.pages, self.fuel, self.log_limit, self.visits = module, seed, pages, fuel, logs, visits
        self.words = {}
        for k in range(4096):
            v = int.from_bytes(module.image[8 * k:8 * k + 8], 'little')
            if v:
                self.words[GLOBALS + 8 * k] = v
        self.page, self.block, self.home, self.head, self.entry = {}, {}, {}, {}, {}
        self.given, self.prints, self.drawn_logs = 1, [], 0
        self.start = [1] + [0] * 15
        self.func, self.arg = [0] * 16, [0] * 16
        self.counts = dict(mallocs=0, frees=0, notes=0, marks=0)
        self.noted, self.due = [], {}
        self.threads = [Thread(self, t) for t in range(16)]

    def turn(self, t):
        th = self.threads[t]
        row, act = th.pending
        old = act()
        try:
            th.pending = th.gen.send(old)
        except StopIteration:
            th.pending = None
        return row, old

    def run(self, cues=()):
        cues, x = list(cues), self.seed
        steps = []
        while self.threads[0].stop is None:
            live = [t for t in range(min(self.given, 16)) if self.threads[t].stop is None]
            while cues and cues[0][0] not in live:
                cues.pop(0)
            if cues:
                t = cues[0][0]
                row, old = self.turn(t)
                not_yet = (row == 1 and old == 0) or (row == 11 and old != 2)
                if row == cues[0][1] or not_yet or self.threads[t].stop is not None:
                    cues.pop(0)
            else:
                x = (x * 6364136223846793005 + 1442695040888963407) & M64
                t = live[(x >> 33) % len(live)]
                row, old = self.turn(t)
            steps.append((t, row))
        return steps

    def report(self):
        out = [str(signed(v, 64)) for v in self.prints]
        traps = status = 0
        for t, th in enumerate(self.threads):
            s = th.stop
            if s is None:
                continue
            if s[0] == 'trap':
                traps += 1
                out.append(f'trap thread {t} in @{spelling(s[1])} instruction {s[2]}: {s[3]}')
            elif s[0] == 'full':
                out.append(f'full thread {t} in @{spelling(s[1])} instruction {s[2]}: {s[3]}')
            elif s[0] == 'fuel':
                out.append(f'fuel thread {t}')
        s = self.threads[0].stop
        how = {'trap': 'trapped', 'full': 'stopped at a full table', 'fuel': 'out of fuel'}.get(s[0])
        if s[0] == 'returned':
            how = 'returned' if s[1] is None else f'returned {signed(s[1], 32)}'
        c = self.counts
        out.append(f'main {how}; prints {len(self.prints)} mallocs {c["mallocs"]} frees {c["frees"]} '
                   f'notes {c["notes"]} marks {c["marks"]} traps {traps}')
        kinds = [th.stop[0] for th in self.threads if th.stop]
        if s[0] == 'fuel':
            status = 9
        elif 'full' in kinds:
            status = 7
        elif 'trap' in kinds:
            status = 3
        elif 'fuel' in kinds:
            status = 8
        return out, status


class Thread:
    def __init__(self, machine, number):
        self.x, self.t, self.units, self.began, self.stop = machine, number, 0, False, None
        self.cursor = [0] * 15
        self.sp = STACKS + number * 0x8000
        self.stack_end = self.sp + 0x8000
        self.frames = self.cells = 0
        self.gen = self.life()
        self.pending = next(self.gen)

    def do(self, row, act):
        if self.units >= self.x.fuel:
            raise OutOfFuel
        old = yield row, act
        self.units += 1
        return old

    def begun(self):
        if self.units >= self.x.fuel:
            raise OutOfFuel
        self.units += 1

    def life(self):
        x, t = self.x, self.t
        try:
            while (yield from self.do(1, lambda: x.start[t])) != 1:
                pass
            if t == 0:
                f, args = x.m.by_name['main'], None
            else:
                f = yield from self.do(2, lambda: x.func[t])
                args = [(yield from self.do(3, lambda: x.arg[t]))]
            self.began = True
            fn = x.m.functions[f]
            if args is None:
                args = [0] * len(fn['params'])
            stop = ('returned', (yield from self.call(fn, args, True)))
        except OutOfFuel:
            stop = ('fuel',)
        except (Trap, Full) as e:
            stop = e.args

        def end():
            x.start[t] = 2
            self.stop = stop
            return 0
        yield 12, end

    # program memory
    def good(self, a, width_bytes):
        if a & MARK:
            return f'use after free at 0x{a:x}'
        regions = ((GLOBALS, 4096 * 8), (STACKS, 16 * 0x8000), (HEAP, self.x.pages * 4096))
        if a % width_bytes or not any(s <= a < s + n for s, n in regions):
            return f'bad address 0x{a:x}'
        return None

    def word(self, a):
        return self.x.words.get(a, 0)

    def write(self, a, v):
        self.x.words[a] = v
        for due in self.x.due.values():
            due.discard(a)

    def store_word(self, a, v):
        self.write(a, v)
        return 0

    def swap_word(self, a, expected, new):
        old = self.word(a)
        if old == expected:
            self.write(a, new)
        return old

    def change(self, a, w, f):
        """One change of a part: f gives the new part, or None where nothing is to be changed. Gives the old part."""
        base, shift, mask = a & ~7, 8 * (a % 8), (1 << w) - 1
        old = yield from self.do(18, lambda: self.word(base))
        while True:
            part = old >> shift & mask
            new = f(part)
            if new is None:
                return part
            merged = old & ~(mask << shift) | (new & mask) << shift
            seen = yield from self.do(19, lambda o=old, n=merged: self.swap_word(base, o, n))
            if seen == old:
                return part
            old = seen

    # blocks
    def holding(self, v, page_word):
        if not page_word:
            return None
        w = CLASS_WORDS[page_word - 1]
        page, index = (v - HEAP) // 4096, (v - HEAP) % 4096 // (8 * w)
        return 256 * page + index if index < 512 // w else None

    def block_start(self, place, page_word):
        return HEAP + 4096 * (place // 256) + 8 * CLASS_WORDS[page_word - 1] * (place % 256)

    def block_word(self, place):
        return self.x.block.get(place, 0)

    def swap_block(self, place, expected, new):
        old = self.block_word(place)
        if old == expected:
            self.x.block[place] = new
        return old

    def malloc(self, n):
        x = self.x
        if n > 4095:
            return 0
        c = next(k for k, w in enumerate(CLASS_WORDS) if 8 * w >= n + 1)
        first, passed = self.cursor[c], 0
        again = first % 256 != 0
        while True:
            page = (first // 256 + passed) % x.pages
            index = first % 256 if passed == 0 else 0
            end = first % 256 if passed == x.pages else 512 // CLASS_WORDS[c]
            old = yield from self.do(20, lambda: x.page.get(page, 0))
            if old == 0:
                def assign():
                    was = x.page.get(page, 0)
                    if was == 0:
                        x.page[page] = c + 1
                    return was
                old = yield from self.do(21, assign)
                if old == 0:
                    old = c + 1
            if old != c + 1:
                again = again and passed != 0
            else:
                while index < end:
                    place = 256 * page + index
                    seen = yield from self.do(22, lambda: self.block_word(place))
                    while seen % 4 == 0:
                        life = seen // 4
                        seen = yield from self.do(
                            23, lambda: self.swap_block(place, life * 4, (life + 1) * 4 + 1))
                        if seen == life * 4:
                            x.counts['mallocs'] += 1
                            here = 256 * page + index
                            last = index + 1 >= 512 // CLASS_WORDS[c]
                            self.cursor[c] = 256 * ((page + 1) % x.pages) if last else here + 1
                            return self.block_start(here, c + 1)
                    index += 1
            passed += 1
            if passed >= x.pages + (1 if again else 0):
                return 0

    def note(self, at, v):
        x, t = self.x, self.t
        if v & MARK or not HEAP <= v < HEAP + 4096 * x.pages:
            return
        old = yield from self.do(24, lambda: x.page.get((v - HEAP) // 4096, 0))
        place = self.holding(v, old)
        if place is None:
            return
        old = yield from self.do(25, lambda: self.block_word(place))
        if old % 4 != 1:
            return
        life = old // 4
        home = yield from self.do(26, lambda: x.home.get((place, t), 0))
        if home == 0:
            def draw():
                x.drawn_logs += 1
                return x.drawn_logs - 1
            log = yield from self.do(27, draw)
            if log >= x.log_limit:
                raise Full('full', self.fn, self.at, 'logs')
            yield from self.do(28, lambda: x.head.__setitem__(log, (life, 0)))
            yield from self.do(29, lambda: x.home.__setitem__((place, t), log + 1))
            used = 0
        else:
            log = home - 1
            since, used = yield from self.do(30, lambda: x.head[log])
            if since != life:
                yield from self.do(31, lambda: x.head.__setitem__(log, (life, 0)))
                used = 0
            elif used == 14:
                raise Full('full', self.fn, self.at, 'hash')
        yield from self.do(38, lambda: x.entry.__setitem__((log, used), at))

        def count():
            x.head[log] = (life, used + 1)
            x.counts['notes'] += 1
            x.noted.append((place, life, at, t))
        yield from self.do(39, count)

    def free(self, v):
        x = self.x
        if v == 0:
            return
        if v & MARK:
            raise Trap('trap', self.fn, self.at, f'free of marked 0x{v:x}')
        if not HEAP <= v < HEAP + 4096 * x.pages or v % 8:
            raise Trap('trap', self.fn, self.at, f'bad free of 0x{v:x}')
        page = yield from self.do(61, lambda: x.page.get((v - HEAP) // 4096, 0))
        place = self.holding(v, page)
        if place is None or self.block_start(place, page) != v:
            raise Trap('trap', self.fn, self.at, f'bad free of 0x{v:x}')
        old = yield from self.do(62, lambda: self.block_word(place))
        if old % 4 == 1:
            life = old // 4

            def take():
                x.due[self.t] = {a for p, g, a, u in x.noted if (p, g) == (place, life)}
                return self.swap_block(place, life * 4 + 1, life * 4 + 2)
            old = yield from self.do(63, take)
        if old % 4 != 1 or old // 4 != life:
            raise Trap('trap', self.fn, self.at, f'double free of 0x{v:x}, seen 0x{old:x}')
        if x.visits:
            yield from self.visit_all(place, life, v, v + 8 * CLASS_WORDS[page - 1])

        def give_back():
            due = x.due.pop(self.t)
            assert not (x.visits and due), 'a free ends that owes a visit to a noted location'
            x.block[place] = life * 4
            x.counts['frees'] += 1
        yield from self.do(74, give_back)

    def visit_all(self, place, life, start, end):
        x = self.x
        given = yield from self.do(64, lambda: x.given)
        for u in range(min(given, 16)):
            home = yield from self.do(65, lambda: x.home.get((place, u), 0))
            if home == 0:
                continue
            log = home - 1
            since, used = yield from self.do(67, lambda: x.head[log])
            if since != life:
                continue
            for k in range(used):
                at = yield from self.do(68, lambda: x.entry[log, k])
                assert any((p, g, a) == (place, life, at) for p, g, a, _ in x.noted), 'a visit of what was not noted'

                def look():
                    if not start <= self.word(at) < end:
                        x.due[self.t].discard(at)
                    return self.word(at)
                seen = yield from self.do(69, look)
                if start <= seen < end:
                    def mark():
                        old = self.swap_word(at, seen, seen | MARK)
                        x.counts['marks'] += old == seen
                        if not start <= old < end:
                            x.due[self.t].discard(at)
                        return old
                    yield from self.do(70, mark)

    # instructions
    def call(self, fn, args, first=False):
        x, m = self.x, self.x.m
        cells = len(fn['params']) + sum(2 if i['op'] == 'cmpxchg' else 1 for i in fn['code'] if i['gives'])
        if first and (self.frames + 1 > 1024 or self.cells + cells > 65536):
            self.begun()
            raise Trap('trap', fn['name'], 0, 'stack limit')
        self.frames += 1
        self.cells += cells
        sp = self.sp
        env = {p[1]: a for p, a in zip(fn['params'], args)}
        k, came = 0, None

        def val(v, ty):
            if v[0] == 'local':
                return env[v[1]]
            if v[0] == 'glob':
                return m.address[v[1]]
            return v[1] & ((1 << width(ty)) - 1)

        def fail(text):
            raise Trap('trap', fn['name'], k, text)

        def checked(a, ty):
            text = self.good(a, m.size(ty))
            if text:
                fail(text)
            return a

        while True:
            ins = fn['code'][k]
            op = ins['op']
            self.begun()
            self.fn, self.at = fn['name'], k
            result, goto = None, None
            if op in BINARY:
                w = width(ins['ty'])
                result = self.binary(op, w, val(ins['a'], ins['ty']), val(ins['b'], ins['ty']), fail)
            elif op == 'icmp':
                w = width(ins['ty'])
                a, b = val(ins['a'], ins['ty']), val(ins['b'], ins['ty'])
                c = ins['cond']
                if c[0] == 's':
                    a, b = signed(a, w), signed(b, w)
                c = c.lstrip('us') if c not in ('eq', 'ne') else c
                result = int({'eq': a == b, 'ne': a != b, 'gt': a > b, 'ge': a >= b, 'lt': a < b, 'le': a <= b}[c])
            elif op == 'select':
                result = val(ins['a'], ins['ty']) if val(ins['c'], 'i1') else val(ins['b'], ins['ty'])
            elif op in CASTS:
                a = val(ins['a'], ins['ty'])
                if op == 'sext':
                    a = signed(a, width(ins['ty']))
                result = a & ((1 << width(ins['to'])) - 1)
            elif op == 'alloca':
                n = 1 if ins['n'] is None else val(ins['n'][1], ins['n'][0])
                size = -(-(m.size(ins['of']) * n) // 8) * 8
                if self.sp + size > self.stack_end:
                    fail('stack limit')
                result = self.sp
                self.sp += size
            elif op == 'load':
                a = checked(val(ins['at'], 'ptr'), ins['ty'])
                old = yield from self.do(14, lambda: self.word(a & ~7))
                result = old >> (8 * (a % 8)) & ((1 << width(ins['ty'])) - 1)
            elif op == 'store':
                v = val(ins['v'], ins['ty'])
                a = checked(val(ins['at'], 'ptr'), ins['ty'])
                if m.size(ins['ty']) == 8:
                    yield from self.do(15, lambda: self.store_word(a, v))
                else:
                    yield from self.change(a, width(ins['ty']), lambda part: v)
            elif op == 'getelementptr':
                result = self.gep(ins, val)
            elif op == 'phi':
                pass
            elif op == 'atomicrmw':
                w = width(ins['ty'])
                v = val(ins['v'], ins['ty'])
                a = checked(val(ins['at'], 'ptr'), ins['ty'])
                f = {'xchg': lambda o: v, 'add': lambda o: (o + v) % (1 << w), 'sub': lambda o: (o - v) % (1 << w),
                     'and': lambda o: o & v, 'or': lambda o: o | v, 'xor': lambda o: o ^ v,
                     'umax': lambda o: max(o, v), 'umin': lambda o: min(o, v)}[ins['kind']]
                if w == 64:
                    def change():
                        old = self.word(a)
                        self.write(a, f(old))
                        return old
                    result = yield from self.do(16, change)
                else:
                    result = yield from self.change(a, w, f)
            elif op == 'cmpxchg':
                w = width(ins['ty'])
                c, v = val(ins['c'], ins['ty']), val(ins['v'], ins['ty'])
                a = checked(val(ins['at'], 'ptr'), ins['ty'])
                if w == 64:
                    old = yield from self.do(17, lambda: self.swap_word(a, c, v))
                else:
                    old = yield from self.change(a, w, lambda part: v if part == c else None)
                result = (old, int(old == c))
            elif op == 'extractvalue':
                result = env[ins['a'][1]][ins['i']]
            elif op == 'call':
                args = [(ty, v) for ty, v in ins['args']]
                callee = m.functions[m.by_name[ins['callee']]]
                if callee['defined']:
                    need = len(callee['params']) + sum(
                        2 if i['op'] == 'cmpxchg' else 1 for i in callee['code'] if i['gives'])
                    if self.frames + 1 > 1024 or self.cells + need > 65536:
                        fail('stack limit')
                    result = yield from self.call(callee, [val(v, ty) for ty, v in args])
                else:
                    result = yield from self.external(ins['callee'], args, val, fail)
            elif op == 'ret':
                self.sp = sp
                self.frames -= 1
                self.cells -= cells
                return None if ins['v'] is None else val(ins['v'], ins['ty'])
            elif op == 'br':
                goto = ins['yes'] if ins['c'] is None or val(ins['c'], 'i1') else ins['no']
            elif op == 'switch':
                v = val(ins['v'], ins['ty'])
                goto = next((l for c, l in ins['cases'] if val(c, ins['ty']) == v), ins['other'])
            elif op == 'unreachable':
                fail('unreachable')
            if ins['result'] is not None and op != 'phi':
                env[ins['result']] = result
            noted = (op == 'store' and ins['ty'] == 'ptr') or (op == 'cmpxchg' and ins['ty'] == 'ptr') \
                or (op == 'atomicrmw' and ins['ty'] == 'ptr')
            if noted:
                self.begun()
                self.fn, self.at = fn['name'], k
                yield from self.note(val(ins['at'], 'ptr'), val(ins['v'], 'ptr'))
            if goto is not None:
                came, k = ins['block'], fn['blocks'][goto]
                phis, j = {}, k
                while fn['code'][j]['op'] == 'phi' and fn['code'][j]['block'] == goto:
                    p = fn['code'][j]
                    phis[p['result']] = val(next(v for v, l in p['arms'] if l == came), p['ty'])
                    j += 1
                env.update(phis)
            else:
                k += 1

    def binary(self, op, w, a, b, fail):
        mask = (1 << w) - 1
        if op in ('udiv', 'urem', 'sdiv', 'srem'):
            if b == 0:
                fail('division by zero')
            if op in ('udiv', 'urem'):
                return a // b if op == 'udiv' else a % b
            sa, sb = signed(a, w), signed(b, w)
            if sa == -(1 << (w - 1)) and sb == -1:
                fail('division overflow')
            q = abs(sa) // abs(sb) * (1 if (sa < 0) == (sb < 0) else -1)
            return (q if op == 'sdiv' else sa - q * sb) & mask
        if op in ('shl', 'lshr', 'ashr'):
            if op == 'ashr':
                return signed(a, w) >> min(b, w) & mask
            return 0 if b >= w else (a << b & mask if op == 'shl' else a >> b)
        return {'add': a + b, 'sub': a - b, 'mul': a * b, 'and': a & b, 'or': a | b, 'xor': a ^ b}[op] & mask

    def gep(self, ins, val):
        m, a, ty = self.x.m, val(ins['base'], 'ptr'), ins['of']
        for j, (ity, v) in enumerate(ins['idx']):
            i = signed(val(v, ity), width(ity))
            if j == 0:
                a += i * m.size(ty)
            elif ty[0] == 'array':
                ty = ty[2]
                a += i * m.size(ty)
            else:
                a += m.offset(ty[1], i)
                ty = m.structs[ty[1]][i]
        return a & M64

    def external(self, name, args, val, fail):
        x = self.x
        if name == 'malloc':
            return (yield from self.malloc(val(args[0][1], 'i64')))
        if name == 'free':
            yield from self.free(val(args[0][1], 'ptr'))
        elif name == 'print_i64':
            v = val(args[0][1], 'i64')
            yield from self.do(13, lambda: x.prints.append(v) or len(x.prints) - 1)
        elif name == 'pthread_create':
            at = val(args[0][1], 'ptr')
            text = self.good(at, 8)
            if text:
                fail(text)
            f, arg = x.m.by_name[args[2][1][1]], val(args[3][1], 'ptr')

            def draw():
                x.given += 1
                return x.given - 1
            n = yield from self.do(5, draw)
            if n >= 16:
                return 11
            yield from self.do(9, lambda: self.store_word(at, n))
            yield from self.do(6, lambda: x.func.__setitem__(n, f))
            yield from self.do(7, lambda: x.arg.__setitem__(n, arg))

            def open_it():
                if x.start[n] == 0:
                    x.start[n] = 1
            yield from self.do(8, open_it)
            return 0
        elif name == 'pthread_join':
            n = val(args[0][1], 'i64')
            given = yield from self.do(10, lambda: x.given)
            if n == self.t or n >= 16 or n >= given:
                fail(f'bad join of {n}')
            while (yield from self.do(11, lambda: x.start[n])) != 2:
                pass
            return 0
        return None


def replay(text, cues=(), **options):
    sys.setrecursionlimit(20000)
    machine = Machine(Module(text), **options)
    machine.run(cues)
    return machine.report()


if __name__ == '__main__':
    names = ('seed', 'pages', 'fuel', 'logs', 'visits')
    words = sys.argv[1:]
    chosen = {w[2:]: int(n) for w, n in zip(words[::2], words[1::2]) if w[2:] in names}
    lines, code = replay(sys.stdin.buffer.read().decode('latin-1'), **chosen)
    print('\n'.join(lines))
    sys.exit(code)
