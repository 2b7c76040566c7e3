// The atomic operations of C, on one thread: a lock of a byte, tickets of 16 bits, a count of holders, bits of flags,
// a stack of numbered nodes whose head has a tag beside it, a ring of bytes with two counters, and the greatest of
// some numbers by compare-and-exchange.
// Prints 0, 1 and 0, whether the lock was taken before; 65534, 65535 and 0, tickets that wrap, and 1, how many wait;
// 3 and 0, holders, and 1, that the last one left; 5, 4 and 250, flags of a byte; 3, 2, 1 and 0, nodes taken from the
// stack, and 8, its tag; 4, 10, 20, 30 and 40, the bytes in the ring and what it gave, and -1, as it was empty; 91 and
// 5, the greatest number and how often it was exchanged; 1 and 0, two exchanges of a pointer, and 8, what it leads to;
// and -1000000000000, 1 and 24, a counter of 64 bits before, whether it was exchanged, and what it is.
void print_i64(long);

typedef unsigned char byte;
typedef unsigned short half;
typedef unsigned int word;

struct shared {
    byte lock;
    byte flags;
    half next_ticket;
    half serving;
    signed char holders;
    word head;
    byte next[8];
    byte ring[4];
    half written;
    half read;
    int greatest;
    long total;
    long *at;
};

static struct shared shared;
static int numbers[] = { 3, -8, 40, 39, 57, 57, -1, 90, 91, 12 };
static long values[2] = { 7, 8 };

static _Bool take_lock(byte *lock) { return __atomic_exchange_n(lock, 1, __ATOMIC_ACQUIRE); }

static void give_lock(byte *lock) { __atomic_store_n(lock, 0, __ATOMIC_RELEASE); }

static void locks(byte *lock) {
    print_i64(take_lock(lock));
    print_i64(take_lock(lock));
    give_lock(lock);
    print_i64(take_lock(lock));
}

static void tickets(half *next, half *serving) {
    __atomic_store_n(next, 65534, __ATOMIC_RELAXED);
    __atomic_store_n(serving, 65534, __ATOMIC_RELAXED);
    for (int i = 0; i < 3; i++) print_i64(__atomic_fetch_add(next, 1, __ATOMIC_RELAXED));
    __atomic_add_fetch(serving, 2, __ATOMIC_RELEASE);
    half waiting = __atomic_load_n(next, __ATOMIC_RELAXED) - __atomic_load_n(serving, __ATOMIC_ACQUIRE);
    print_i64(waiting);
}

static void holders(signed char *count) {
    for (int i = 0; i < 3; i++) __atomic_fetch_add(count, 1, __ATOMIC_RELAXED);
    print_i64(*count);
    _Bool last = 0;
    for (int i = 0; i < 3; i++) last = __atomic_sub_fetch(count, 1, __ATOMIC_ACQ_REL) == 0;
    print_i64(*count);
    print_i64(last);
}

static void flags(byte *set) {
    __atomic_fetch_or(set, 5, __ATOMIC_SEQ_CST);
    print_i64(__atomic_fetch_and(set, 0xFE, __ATOMIC_SEQ_CST));
    print_i64(__atomic_fetch_xor(set, 0xFE, __ATOMIC_SEQ_CST));
    print_i64(*set);
}

// The head is a number of a node in the lower half, 0 for none, and in the upper one how often it was exchanged.
static void push(word *head, byte *next, byte node) {
    word seen = __atomic_load_n(head, __ATOMIC_RELAXED);
    word made;
    do {
        next[node] = seen;
        made = ((seen >> 16) + 1) << 16 | node;
    } while (!__atomic_compare_exchange_n(head, &seen, made, 1, __ATOMIC_RELEASE, __ATOMIC_RELAXED));
}

static byte pop(word *head, byte *next) {
    word seen = __atomic_load_n(head, __ATOMIC_ACQUIRE);
    word made;
    do {
        if ((byte)seen == 0) break;
        made = ((seen >> 16) + 1) << 16 | next[(byte)seen];
    } while (!__atomic_compare_exchange_n(head, &seen, made, 0, __ATOMIC_ACQUIRE, __ATOMIC_ACQUIRE));
    return seen;
}

static void stack(word *head, byte *next) {
    push(head, next, 1);
    push(head, next, 2);
    push(head, next, 5);
    pop(head, next);
    push(head, next, 3);
    for (int i = 0; i < 4; i++) print_i64(pop(head, next));
    print_i64(*head >> 16);
}

static _Bool write(struct shared *s, byte b) {
    half at = __atomic_load_n(&s->written, __ATOMIC_RELAXED);
    _Bool room = (half)(at - __atomic_load_n(&s->read, __ATOMIC_ACQUIRE)) < 4;
    if (room) {
        s->ring[at % 4] = b;
        __atomic_store_n(&s->written, at + 1, __ATOMIC_RELEASE);
    }
    return room;
}

static int read(struct shared *s) {
    half at = __atomic_load_n(&s->read, __ATOMIC_RELAXED);
    if (at == __atomic_load_n(&s->written, __ATOMIC_ACQUIRE)) return -1;
    byte b = s->ring[at % 4];
    __atomic_store_n(&s->read, at + 1, __ATOMIC_RELEASE);
    return b;
}

static void ring(struct shared *s) {
    __atomic_exchange_n(&s->written, 65535, __ATOMIC_SEQ_CST);
    __atomic_exchange_n(&s->read, 65535, __ATOMIC_SEQ_CST);
    int held = 0;
    for (byte b = 10; b <= 50; b += 10) held += write(s, b);
    print_i64(held);
    for (int i = 0; i < 5; i++) print_i64(read(s));
}

static void greatest(int *most, const int *all, int n) {
    long exchanged = 0;
    for (int i = 0; i < n; i++) {
        int seen = __atomic_load_n(most, __ATOMIC_RELAXED);
        while (all[i] > seen)
            if (__atomic_compare_exchange_n(most, &seen, all[i], 1, __ATOMIC_SEQ_CST, __ATOMIC_RELAXED)) {
                exchanged++;
                break;
            }
    }
    print_i64(*most);
    print_i64(exchanged);
}

static void pointers(long **at, long *to) {
    long *none = 0;
    print_i64(__atomic_compare_exchange_n(at, &none, to, 0, __ATOMIC_SEQ_CST, __ATOMIC_SEQ_CST));
    none = 0;
    print_i64(__atomic_compare_exchange_n(at, &none, 0, 0, __ATOMIC_SEQ_CST, __ATOMIC_SEQ_CST));
    (void)__atomic_exchange_n(at, none + 1, __ATOMIC_SEQ_CST);
    print_i64(**at);
}

static void totals(long *total) {
    __atomic_fetch_sub(total, 1000000000000, __ATOMIC_SEQ_CST);
    long seen = 0;
    __atomic_compare_exchange_n(total, &seen, 5, 0, __ATOMIC_SEQ_CST, __ATOMIC_SEQ_CST);
    print_i64(seen);
    print_i64(__atomic_compare_exchange_n(total, &seen, 24, 0, __ATOMIC_SEQ_CST, __ATOMIC_SEQ_CST));
    print_i64(__atomic_load_n(total, __ATOMIC_SEQ_CST));
}

static void work(struct shared *s, const int *all, long *to) {
    locks(&s->lock);
    tickets(&s->next_ticket, &s->serving);
    holders(&s->holders);
    flags(&s->flags);
    stack(&s->head, s->next);
    ring(s);
    greatest(&s->greatest, all, 10);
    pointers(&s->at, to);
    totals(&s->total);
}

int main(void) {
    work(&shared, numbers, values);
    return 0;
}
