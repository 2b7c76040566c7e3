"""Reads the text of an accepted module, for the model of runs: what it says, and where its globals stand."""
import re

GLOBALS = 0x1000
BINARY = 'add sub mul udiv sdiv urem srem shl lshr ashr and or xor'.split()
CASTS = 'zext sext trunc ptrtoint inttoptr'.split()
STARTS = set(BINARY + CASTS + '''icmp select alloca load store getelementptr call phi atomicrmw cmpxchg extractvalue
    fence ret br switch unreachable tail musttail notail'''.split())
TOKEN = re.compile(r'''\s+|;[^\n]*|(?P<ctext>c"[^"]*")|(?P<label>(?:[-a-zA-Z$._][-a-zA-Z$._0-9]*|"[^"]*"|[0-9]+):)
    |(?P<text>"[^"]*")|(?P<local>%(?:[-a-zA-Z$._][-a-zA-Z$._0-9]*|"[^"]*"|[0-9]+))
    |(?P<glob>@(?:[-a-zA-Z$._][-a-zA-Z$._0-9]*|"[^"]*"|[0-9]+))|(?P<attr>\#[0-9]+)|(?P<meta>![-a-zA-Z$._0-9\\]*)
    |(?P<num>-?[0-9]+)|(?P<word>[a-zA-Z$._][-a-zA-Z$._0-9]*)|(?P<punct>\.\.\.|[=,(){}\[\]<>*:|])''', re.X)


def spelling(name):
    """A name as canonical text has it."""
    if isinstance(name, int):
        return str(name)
    if re.fullmatch(r'[-a-zA-Z$._][-a-zA-Z$._0-9]*', name):
        return name
    plain = lambda c: c if ' ' <= c <= '~' and c not in '"\\' else f'\\{ord(c):02X}'
    return '"' + ''.join(plain(c) for c in name) + '"'


def unescape(s):
    return re.sub(rb'\\([0-9a-fA-F]{2})', lambda m: bytes([int(m[1], 16)]), s)


def lex(text):
    out, i = [], 0
    while i < len(text):
        m = TOKEN.match(text, i)
        if not m:
            raise SyntaxError(f'at {i}: {text[i:i + 20]!r}')
        if m.lastgroup:
            s = m.group()
            if m.lastgroup in ('local', 'glob'):
                name = s[1:]
                if name[0] == '"':
                    name = unescape(name[1:-1].encode('latin-1')).decode('latin-1')
                elif name.isdigit():
                    name = int(name)
                out.append((m.lastgroup, name))
            elif m.lastgroup == 'label':
                name = s[:-1]
                if name[0] == '"':
                    name = unescape(name[1:-1].encode('latin-1')).decode('latin-1')
                elif name.isdigit():
                    name = int(name)
                out.append(('label', name))
            else:
                out.append((m.lastgroup, s))
        i = m.end()
    out.append(('end', ''))
    return out


class Module:
    def __init__(self, text):
        self.toks, self.i = lex(text), 0
        self.structs, self.globals, self.functions = {}, [], []
        self.entities()
        self.by_name = {f['name']: k for k, f in enumerate(self.functions)}
        self.lay_out()

    # reading
    def peek(self, k=0):
        return self.toks[min(self.i + k, len(self.toks) - 1)]

    def next(self):
        t = self.toks[self.i]
        self.i += 1
        return t

    def want(self, s):
        t = self.next()
        assert t[1] == s, (t, s, self.toks[max(0, self.i - 8):self.i + 4])

    def skip_balanced(self):
        depth = 0
        while True:
            t = self.next()
            if t[0] == 'punct' and t[1] in '([{<':
                depth += 1
            if t[0] == 'punct' and t[1] in ')]}>':
                depth -= 1
            if depth <= 0:
                return

    def is_type(self):
        t = self.peek()
        return (t[0] == 'word' and t[1] in ('void', 'i1', 'i8', 'i16', 'i32', 'i64', 'ptr')) or t[0] == 'local' \
            or t == ('punct', '[')

    def skip_ignored(self):
        """Words that say nothing, up to a type."""
        while not self.is_type():
            t = self.peek()
            if t == ('punct', '('):
                self.skip_balanced()
            elif t == ('punct', ',') or t[0] == 'end':
                return
            else:
                self.next()

    def type(self):
        t = self.next()
        if t == ('punct', '['):
            n = int(self.next()[1])
            self.want('x')
            of = self.type()
            self.want(']')
            return ('array', n, of)
        if t[0] == 'local':
            return ('struct', t[1])
        return t[1]

    def entities(self):
        while self.peek()[0] != 'end':
            t = self.next()
            if t[0] == 'local':
                self.want('=')
                self.want('type')
                self.want('{')
                fields = []
                while self.peek() != ('punct', '}'):
                    fields.append(self.type())
                    if self.peek() == ('punct', ','):
                        self.next()
                self.want('}')
                self.structs[t[1]] = fields
            elif t[0] == 'glob':
                self.want('=')
                while self.peek()[1] not in ('global', 'constant'):
                    if self.peek() == ('punct', '('):
                        self.skip_balanced()
                    else:
                        self.next()
                self.next()
                ty = self.type()
                self.globals.append((t[1], ty, self.init(ty)))
            elif t == ('word', 'define') or t == ('word', 'declare'):
                self.function(t[1] == 'define')

    def init(self, ty):
        t = self.peek()
        if t[1] == 'zeroinitializer' and t[0] == 'word':
            self.next()
            return ('zero',)
        if t[0] == 'ctext':
            self.next()
            return ('bytes', unescape(t[1][2:-1].encode('latin-1')))
        if t[0] == 'punct' and t[1] in '[{':
            close = ']' if t[1] == '[' else '}'
            self.next()
            items = []
            while self.peek() != ('punct', close):
                ity = self.type()
                items.append((ity, self.init(ity)))
                if self.peek() == ('punct', ','):
                    self.next()
            self.next()
            return ('items', items)
        return ('word', self.value())

    def value(self):
        while True:
            t = self.next()
            if t[0] in ('local', 'glob'):
                return t
            if t[0] == 'num':
                return ('int', int(t[1]))
            if t[1] in ('null', 'undef'):
                return ('int', 0)
            if t[1] == 'true':
                return ('int', 1)
            if t[1] == 'false':
                return ('int', 0)
            if t == ('punct', '('):
                self.i -= 1
                self.skip_balanced()
                continue
            if t[0] == 'word' and t[1] == 'align':
                self.next()

    def operand(self):
        self.skip_ignored()
        ty = self.type()
        return ty, self.value()

    def function(self, defined):
        self.skip_ignored()
        result = self.type()
        while self.peek()[0] != 'glob':
            self.next()
        name = self.next()[1]
        self.want('(')
        f = {'name': name, 'result': result, 'params': [], 'code': [], 'blocks': {}, 'defined': defined}
        counter = 0
        while self.peek() != ('punct', ')'):
            if self.peek() == ('punct', ','):
                self.next()
                continue
            ty = self.type()
            pname = None
            while self.peek() not in (('punct', ','), ('punct', ')')):
                t = self.peek()
                if t == ('punct', '('):
                    self.skip_balanced()
                    continue
                self.next()
                if t[0] == 'local':
                    pname = t[1]
            if pname is None:
                pname = counter
            if isinstance(pname, int):
                counter = pname + 1
            f['params'].append((ty, pname))
        self.want(')')
        if defined:
            while self.peek() != ('punct', '{'):
                if self.peek() == ('punct', '('):
                    self.skip_balanced()
                else:
                    self.next()
            self.next()
            self.body(f, counter)
        self.functions.append(f)

    def body(self, f, counter):
        new_block = True
        while self.peek() != ('punct', '}'):
            t = self.peek()
            if t[0] == 'label':
                self.next()
                if isinstance(t[1], int):
                    counter = t[1] + 1
                f['blocks'][t[1]] = len(f['code'])
                new_block = False
                current = t[1]
                continue
            if new_block:
                f['blocks'][counter] = len(f['code'])
                current = counter
                counter += 1
                new_block = False
            result = None
            if t[0] == 'local' and self.peek(1) == ('punct', '='):
                result = t[1]
                self.next()
                self.next()
            ins = self.instr()
            ins['block'] = current
            if ins['gives']:
                if result is None:
                    result = counter
                if isinstance(result, int):
                    counter = result + 1
            ins['result'] = result if ins['gives'] else None
            f['code'].append(ins)
            self.skip_tail()
            if ins['op'] in ('ret', 'br', 'switch', 'unreachable'):
                new_block = True
        self.next()

    def skip_tail(self):
        while True:
            t = self.peek()
            if t[0] == 'label' or t == ('punct', '}') or t[0] == 'end':
                return
            if t[0] == 'local' and self.peek(1) == ('punct', '='):
                return
            if t[0] == 'word' and t[1] in STARTS:
                return
            if t == ('punct', '('):
                self.skip_balanced()
            else:
                self.next()

    def instr(self):
        t = self.next()[1]
        while t in ('tail', 'musttail', 'notail'):
            t = self.next()[1]
        ins = {'op': t, 'gives': True}
        if t in BINARY:
            ins['ty'], ins['a'] = self.operand()
            self.want(',')
            ins['b'] = self.value()
        elif t == 'icmp':
            conds = 'eq ne ugt uge ult ule sgt sge slt sle'.split()
            while self.peek()[1] not in conds:
                self.next()
            ins['cond'] = self.next()[1]
            ins['ty'], ins['a'] = self.operand()
            self.want(',')
            ins['b'] = self.value()
        elif t == 'select':
            ins['c'] = self.operand()[1]
            self.want(',')
            ins['ty'], ins['a'] = self.operand()
            self.want(',')
            ins['b'] = self.operand()[1]
        elif t in CASTS:
            ins['ty'], ins['a'] = self.operand()
            self.want('to')
            ins['to'] = self.type()
        elif t == 'alloca':
            self.skip_ignored()
            ins['of'] = self.type()
            ins['n'] = None
            if self.peek() == ('punct', ',') and self.peek(1)[1] in ('i1', 'i8', 'i16', 'i32', 'i64'):
                self.next()
                ins['n'] = self.operand()
        elif t == 'load':
            self.skip_ignored()
            ins['ty'] = self.type()
            self.want(',')
            ins['at'] = self.operand()[1]
        elif t == 'store':
            ins['gives'] = False
            ins['ty'], ins['v'] = self.operand()
            self.want(',')
            ins['at'] = self.operand()[1]
        elif t == 'getelementptr':
            self.skip_ignored()
            ins['of'] = self.type()
            self.want(',')
            ins['base'] = self.operand()[1]
            ins['idx'] = []
            while self.peek() == ('punct', ',') and self.peek(1)[0] == 'word' and self.peek(1)[1] != 'align':
                self.next()
                ins['idx'].append(self.operand())
        elif t == 'call':
            self.skip_ignored()
            ins['ty'] = self.type()
            while self.peek()[0] != 'glob':
                self.next()
            ins['callee'] = self.next()[1]
            self.want('(')
            args = []
            while self.peek() != ('punct', ')'):
                if self.peek() == ('punct', ','):
                    self.next()
                    continue
                ty = self.type()
                while self.peek()[0] == 'word' and self.peek()[1] not in ('null', 'undef', 'true', 'false'):
                    w = self.next()
                    if w[1] == 'align':
                        self.next()
                    if self.peek() == ('punct', '('):
                        self.skip_balanced()
                args.append((ty, self.value()))
            self.next()
            ins['args'] = args
            ins['gives'] = ins['ty'] != 'void'
        elif t == 'phi':
            self.skip_ignored()
            ins['ty'] = self.type()
            ins['arms'] = []
            while self.peek() == ('punct', '[') or (self.peek() == ('punct', ',') and self.peek(1) == ('punct', '[')):
                if self.peek() == ('punct', ','):
                    self.next()
                self.want('[')
                v = self.value()
                self.want(',')
                ins['arms'].append((v, self.next()[1]))
                self.want(']')
        elif t == 'atomicrmw':
            kinds = 'xchg add sub and or xor umax umin'.split()
            while self.peek()[1] not in kinds:
                self.next()
            ins['kind'] = self.next()[1]
            ins['at'] = self.operand()[1]
            self.want(',')
            ins['ty'], ins['v'] = self.operand()
        elif t == 'cmpxchg':
            ins['at'] = self.operand()[1]
            self.want(',')
            ins['ty'], ins['c'] = self.operand()
            self.want(',')
            ins['v'] = self.operand()[1]
        elif t == 'extractvalue':
            self.want('{')
            ins['ty'] = self.type()
            while self.next() != ('punct', '}'):
                pass
            ins['a'] = self.value()
            self.want(',')
            ins['i'] = int(self.next()[1])
        elif t == 'fence':
            ins['gives'] = False
        elif t == 'ret':
            ins['gives'] = False
            self.skip_ignored()
            ins['ty'] = self.type()
            ins['v'] = None if ins['ty'] == 'void' else self.value()
        elif t == 'br':
            ins['gives'] = False
            if self.peek()[1] == 'label':
                self.next()
                ins['c'] = None
                ins['yes'] = self.next()[1]
            else:
                ins['c'] = self.operand()[1]
                self.want(',')
                self.want('label')
                ins['yes'] = self.next()[1]
                self.want(',')
                self.want('label')
                ins['no'] = self.next()[1]
        elif t == 'switch':
            ins['gives'] = False
            ins['ty'], ins['v'] = self.operand()
            self.want(',')
            self.want('label')
            ins['other'] = self.next()[1]
            ins['cases'] = []
            self.want('[')
            while self.peek() != ('punct', ']'):
                ty, v = self.operand()
                self.want(',')
                self.want('label')
                ins['cases'].append((v, self.next()[1]))
            self.next()
        elif t == 'unreachable':
            ins['gives'] = False
        else:
            raise SyntaxError(t)
        return ins

    # layout
    def size(self, ty):
        if isinstance(ty, str):
            return {'void': 0, 'i1': 1, 'i8': 1, 'i16': 2, 'i32': 4, 'i64': 8, 'ptr': 8}[ty]
        if ty[0] == 'array':
            return ty[1] * self.size(ty[2])
        end = 0
        for f in self.structs[ty[1]]:
            end = -(-end // self.align(f)) * self.align(f) + self.size(f)
        return -(-end // self.align(ty)) * self.align(ty)

    def align(self, ty):
        if isinstance(ty, str):
            return max(1, self.size(ty))
        if ty[0] == 'array':
            return self.align(ty[2])
        return max([1] + [self.align(f) for f in self.structs[ty[1]]])

    def offset(self, name, k):
        end = 0
        for j, f in enumerate(self.structs[name]):
            end = -(-end // self.align(f)) * self.align(f)
            if j == k:
                return end
            end += self.size(f)

    def lay_out(self):
        self.address, at = {}, GLOBALS
        for name, ty, _ in self.globals:
            self.address[name] = at
            at += -(-self.size(ty) // 8) * 8
        self.image = bytearray(4096 * 8)
        for name, ty, init in self.globals:
            self.put(self.address[name] - GLOBALS, ty, init)

    def put(self, at, ty, init):
        if init[0] == 'bytes':
            self.image[at:at + len(init[1])] = init[1]
        elif init[0] == 'word':
            v = init[1]
            n = self.address[v[1]] if v[0] == 'glob' else v[1]
            w = self.size(ty)
            mask = 1 if ty == 'i1' else (1 << (8 * w)) - 1
            self.image[at:at + w] = (n & mask).to_bytes(w, 'little')
        elif init[0] == 'items':
            for k, (ity, item) in enumerate(init[1]):
                if ty[0] == 'array':
                    self.put(at + k * self.size(ty[2]), ty[2], item)
                else:
                    self.put(at + self.offset(ty[1], k), self.structs[ty[1]][k], item)
