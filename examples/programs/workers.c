// Four threads share the work on 60 numbers: each takes the next five that nobody has taken, sums them and their
// squares, and looks for the greatest; the last one to end sums what all of them found.
// Prints 60, how many numbers were taken; 202, their sum; 1, since the sum of the squares is the one that main finds
// alone; 96, the greatest; and 1, since exactly one thread was the last.
typedef unsigned long thread;
int pthread_create(thread *, const void *, void *(*)(void *), void *);
int pthread_join(thread, void **);
void print_i64(long);

enum { COUNT = 60, SLICE = 5, WORKERS = 4 };

struct found { long sum; long squares; long taken; short greatest; };

struct shared {
    short numbers[COUNT];
    int next;
    unsigned char left;
    signed char lasts;
    struct found each[WORKERS];
    struct found all;
};

struct worker { struct shared *shared; long number; };

static struct shared shared;
static struct worker workers[WORKERS];

static void look(struct found *f, const short *n) {
    f->sum += *n;
    f->squares += *n * *n;
    f->taken++;
    if (*n > f->greatest) f->greatest = *n;
}

static void join_up(struct shared *s) {
    for (int i = 0; i < WORKERS; i++) {
        struct found *f = &s->each[i];
        s->all.sum += f->sum;
        s->all.squares += f->squares;
        s->all.taken += f->taken;
        if (f->greatest > s->all.greatest) s->all.greatest = f->greatest;
    }
}

static void *work(void *argument) {
    struct worker *w = argument;
    struct shared *s = w->shared;
    for (;;) {
        int from = __atomic_fetch_add(&s->next, SLICE, __ATOMIC_RELAXED);
        if (from >= COUNT) break;
        for (int i = 0; i < SLICE; i++) look(&s->each[w->number], &s->numbers[from + i]);
    }
    if (__atomic_sub_fetch(&s->left, 1, __ATOMIC_ACQ_REL) == 0) {
        join_up(s);
        __atomic_fetch_add(&s->lasts, 1, __ATOMIC_RELAXED);
    }
    return argument;
}

static long squares_of(const struct shared *s) {
    long squares = 0;
    for (int i = 0; i < COUNT; i++) squares += s->numbers[i] * s->numbers[i];
    return squares;
}

static void run(struct shared *s, struct worker *all) {
    thread ids[WORKERS];
    short n = 7;
    for (int i = 0; i < COUNT; i++) {
        s->numbers[i] = n % 199 - 99;
        n = n * 31 % 4099;
    }
    s->left = WORKERS;
    for (int i = 0; i < WORKERS; i++) {
        all[i].shared = s;
        all[i].number = i;
        pthread_create(&ids[i], 0, work, &all[i]);
    }
    for (int i = 0; i < WORKERS; i++) pthread_join(ids[i], 0);
    print_i64(s->all.taken);
    print_i64(s->all.sum);
    print_i64(s->all.squares == squares_of(s));
    print_i64(s->all.greatest);
    print_i64(s->lasts);
}

int main(void) {
    run(&shared, workers);
    return 0;
}
