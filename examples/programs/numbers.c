// Whole numbers: common divisors, the longest Collatz sequence, and quotients, remainders and shifts of negative
// numbers. Prints 21, 1, 12, then the start and the steps of the longest sequence below 100 (97, 118), then for -17 and
// 5 the quotient -3, the remainder -2, the shifts -544 and -1, the unsigned shift 576460752303423487, and what & | ^ ~
// give: 5, -17, -22, 16.
void print_i64(long);

static long common_divisor(long a, long b) {
    while (b != 0) {
        long rest = a % b;
        a = b;
        b = rest;
    }
    return a < 0 ? -a : a;
}

static long collatz_steps(long n) {
    long steps = 0;
    while (n != 1) {
        n = n % 2 == 0 ? n / 2 : 3 * n + 1;
        steps++;
    }
    return steps;
}

static void show_longest(long end) {
    long best = 1, most = 0;
    for (long n = 1; n < end; n++) {
        long steps = collatz_steps(n);
        if (steps > most) {
            most = steps;
            best = n;
        }
    }
    print_i64(best);
    print_i64(most);
}

static void show_signed(long a, long b) {
    print_i64(a / b);
    print_i64(a % b);
    print_i64((long)((unsigned long)a << b));
    print_i64(a >> b);
    print_i64((long)((unsigned long)a >> b));
    print_i64(a & b);
    print_i64(a | b);
    print_i64(a ^ b);
    print_i64(~a);
}

int main(void) {
    print_i64(common_divisor(1071, 462));
    print_i64(common_divisor(1000003, 999));
    print_i64(common_divisor(-84, 36));
    show_longest(100);
    show_signed(-17, 5);
    return 0;
}
