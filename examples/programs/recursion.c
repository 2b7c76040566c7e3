// Functions that call themselves: Fibonacci numbers by recursion and by a table, Ackermann's function, two functions
// that call each other, and a recursion 200 deep. Prints 610, 610, 12586269025, 9, 61, 1, 0, 20100.
void print_i64(long);

static long table[91];

static long fibonacci(long n) { return n < 2 ? n : fibonacci(n - 1) + fibonacci(n - 2); }

// Looks a Fibonacci number up, and writes down what is not known yet.
static long known_fibonacci(long *known, long n) {
    if (n < 2) return n;
    if (known[n] == 0) known[n] = known_fibonacci(known, n - 1) + known_fibonacci(known, n - 2);
    return known[n];
}

static long ackermann(long m, long n) {
    if (m == 0) return n + 1;
    if (n == 0) return ackermann(m - 1, 1);
    return ackermann(m - 1, ackermann(m, n - 1));
}

static long is_odd(long n);

static long is_even(long n) { return n == 0 ? 1 : is_odd(n - 1); }

static long is_odd(long n) { return n == 0 ? 0 : is_even(n - 1); }

static long sum_to(long n) { return n == 0 ? 0 : n + sum_to(n - 1); }

int main(void) {
    print_i64(fibonacci(15));
    print_i64(known_fibonacci(table, 15));
    print_i64(known_fibonacci(table, 50));
    print_i64(ackermann(2, 3));
    print_i64(ackermann(3, 3));
    print_i64(is_even(40));
    print_i64(is_odd(40));
    print_i64(sum_to(200));
    return 0;
}
