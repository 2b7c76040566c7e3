// Fifteen threads, as many as there may be beside main, share the numbers 2 to 64: each claims the next one that nobody
// has claimed and says whether it is a prime, in a bit of a word of bits. Prints 18, the primes; 501, their sum; 61, the
// greatest; and 63, how many numbers were claimed.
typedef unsigned long thread;
int pthread_create(thread *, const void *, void *(*)(void *), void *);
int pthread_join(thread, void **);
void print_i64(long);

enum { BEYOND = 65, WORKERS = 15 };

struct shared { unsigned char next; unsigned char claimed; unsigned short sum; unsigned long primes; };

static struct shared shared;

static int is_prime(int n) {
    for (int d = 2; d * d <= n; d++)
        if (n % d == 0) return 0;
    return 1;
}

static void *work(void *argument) {
    struct shared *s = argument;
    for (;;) {
        unsigned char n = __atomic_fetch_add(&s->next, 1, __ATOMIC_RELAXED);
        if (n >= BEYOND) return 0;
        __atomic_fetch_add(&s->claimed, 1, __ATOMIC_RELAXED);
        if (is_prime(n)) {
            __atomic_fetch_or(&s->primes, 1ul << (n - 1), __ATOMIC_RELAXED);
            __atomic_fetch_add(&s->sum, n, __ATOMIC_RELAXED);
        }
    }
}

static void run(struct shared *s) {
    thread ids[WORKERS];
    long primes = 0, greatest = 0;
    s->next = 2;
    for (int i = 0; i < WORKERS; i++) pthread_create(&ids[i], 0, work, s);
    for (int i = 0; i < WORKERS; i++) pthread_join(ids[i], 0);
    for (int n = 1; n < BEYOND; n++)
        if (s->primes >> (n - 1) & 1) {
            primes++;
            greatest = n;
        }
    print_i64(primes);
    print_i64(s->sum);
    print_i64(greatest);
    print_i64(s->claimed);
}

int main(void) {
    run(&shared);
    return 0;
}
