// Three threads let a row of 12 cells grow in rounds: each thread writes its four cells of the next row from the row
// before, and all wait at a barrier before the next round. Main compares with the rows that it makes alone.
// Prints 8, the rounds; 1, since both rows are the same; and 1673, the sum of the last row.
typedef unsigned long thread;
int pthread_create(thread *, const void *, void *(*)(void *), void *);
int pthread_join(thread, void **);
void print_i64(long);

enum { CELLS = 12, WORKERS = 3, ROUNDS = 8 };

struct barrier { int waiting; int round; };

struct shared { struct barrier barrier; short rows[2][CELLS]; };

struct worker { struct shared *shared; int from; };

static struct shared shared;
static struct shared alone;
static struct worker workers[WORKERS];

static void wait_all(struct barrier *b) {
    int round = __atomic_load_n(&b->round, __ATOMIC_ACQUIRE);
    if (__atomic_add_fetch(&b->waiting, 1, __ATOMIC_ACQ_REL) == WORKERS) {
        b->waiting = 0;
        __atomic_store_n(&b->round, round + 1, __ATOMIC_RELEASE);
    } else {
        while (__atomic_load_n(&b->round, __ATOMIC_ACQUIRE) == round) {}
    }
}

static void grow(struct shared *s, int round, int from, int to) {
    short *old = s->rows[round % 2], *new = s->rows[(round + 1) % 2];
    for (int i = from; i < to; i++)
        new[i] = (old[i] + old[(i + 1) % CELLS] + old[(i + CELLS - 1) % CELLS]) % 251;
}

static void *work(void *argument) {
    struct worker *w = argument;
    for (int round = 0; round < ROUNDS; round++) {
        grow(w->shared, round, w->from, w->from + CELLS / WORKERS);
        wait_all(&w->shared->barrier);
    }
    return 0;
}

static void fill(struct shared *s) {
    for (int i = 0; i < CELLS; i++) s->rows[0][i] = i * i % 17;
}

static void run(struct shared *s, struct shared *a, struct worker *w) {
    thread ids[WORKERS];
    long sum = 0;
    _Bool is_same = 1;
    fill(s);
    fill(a);
    for (int i = 0; i < WORKERS; i++) {
        w[i].shared = s;
        w[i].from = i * (CELLS / WORKERS);
        pthread_create(&ids[i], 0, work, &w[i]);
    }
    for (int round = 0; round < ROUNDS; round++) grow(a, round, 0, CELLS);
    for (int i = 0; i < WORKERS; i++) pthread_join(ids[i], 0);
    for (int i = 0; i < CELLS; i++) {
        sum += s->rows[ROUNDS % 2][i];
        if (s->rows[ROUNDS % 2][i] != a->rows[ROUNDS % 2][i]) is_same = 0;
    }
    print_i64(s->barrier.round);
    print_i64(is_same);
    print_i64(sum);
}

int main(void) {
    run(&shared, &alone, workers);
    return 0;
}
