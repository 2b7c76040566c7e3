// A machine of five states reads a text, whose characters are words, and tells numbers, names, remarks and signs apart;
// then the text is turned round in place and compared. Prints 3 names, 4 numbers, the sum 115 of these, 2 remarks, 4
// signs, the first and last character of the text turned round, 33 and 120, and 0 and 1: it is no palindrome, and it is
// the same again once it is turned round twice.
void print_i64(long);

enum { BETWEEN, IN_NAME, IN_NUMBER, IN_REMARK, AT_SIGN };

struct counts { long names; long numbers; long sum; long remarks; long signs; };

static struct counts counts;

static long text[] = {
    'x', '1', ' ', '=', ' ', '4', '2', '+', 'y', '#', 'o', 'n', 'e', '1', '\n', '-', '7', ' ', '0', ' ', 'z', 'z', '#',
    '#', '\n', '6', '6', '!', 0,
};

static long copy[64];

static long is_digit(long c) { return c >= '0' && c <= '9'; }

static long is_letter(long c) { return c >= 'a' && c <= 'z'; }

// The state behind a character where something new may begin.
static long begin(long c) {
    if (is_digit(c)) return IN_NUMBER;
    if (is_letter(c)) return IN_NAME;
    switch (c) {
    case '#': return IN_REMARK;
    case ' ':
    case '\n':
    case 0: return BETWEEN;
    default: return AT_SIGN;
    }
}

static long next(long state, long c) {
    switch (state) {
    case IN_NAME: return is_letter(c) || is_digit(c) ? IN_NAME : begin(c);
    case IN_NUMBER: return is_digit(c) ? IN_NUMBER : begin(c);
    case IN_REMARK: return c == '\n' || c == 0 ? BETWEEN : IN_REMARK;
    default: return begin(c);
    }
}

// Counts what begins where one state follows another.
static void count(struct counts *n, long before, long state) {
    if (before == state && state != AT_SIGN) return;
    switch (state) {
    case IN_NAME: n->names++; break;
    case IN_NUMBER: n->numbers++; break;
    case IN_REMARK: n->remarks++; break;
    case AT_SIGN: n->signs++; break;
    }
}

static void scan(struct counts *n, long *s) {
    long state = BETWEEN, value = 0;
    for (;; s++) {
        long before = state;
        state = next(state, *s);
        count(n, before, state);
        if (state == IN_NUMBER) value = value * 10 + *s - '0';
        if (before == IN_NUMBER && state != IN_NUMBER) {
            n->sum += value;
            value = 0;
        }
        if (*s == 0) break;
    }
}

static long length(long *s) {
    long n = 0;
    while (s[n] != 0) n++;
    return n;
}

static void copy_text(long *to, long *from) {
    while ((*to++ = *from++) != 0) {}
}

static void turn_round(long *s) {
    long *end = s + length(s) - 1;
    for (; s < end; s++, end--) {
        long kept = *s;
        *s = *end;
        *end = kept;
    }
}

static long are_equal(long *a, long *b) {
    while (*a == *b && *a != 0) {
        a++;
        b++;
    }
    return *a == *b;
}

static void show(struct counts *n) {
    print_i64(n->names);
    print_i64(n->numbers);
    print_i64(n->sum);
    print_i64(n->remarks);
    print_i64(n->signs);
}

int main(void) {
    scan(&counts, text);
    show(&counts);
    copy_text(copy, text);
    turn_round(copy);
    print_i64(*copy);
    print_i64(copy[length(copy) - 1]);
    print_i64(are_equal(copy, text));
    turn_round(copy);
    print_i64(are_equal(copy, text));
    return 0;
}
