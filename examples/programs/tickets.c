// Four threads raise one plain counter under a ticket lock: each draws a ticket, waits until it is served, and adds
// what it drew. Prints 40, how often the counter was raised; 780, the sum of the tickets; and 1, since the thread with
// each ticket was served when its turn came.
typedef unsigned long thread;
int pthread_create(thread *, const void *, void *(*)(void *), void *);
int pthread_join(thread, void **);
void print_i64(long);

enum { WORKERS = 4, TURNS = 10 };

struct lock { unsigned next; unsigned served; };

struct shared { struct lock lock; long raised; long sum; _Bool is_in_turn; };

static struct shared shared;

static unsigned take(struct lock *l) {
    unsigned ticket = __atomic_fetch_add(&l->next, 1, __ATOMIC_RELAXED);
    while (__atomic_load_n(&l->served, __ATOMIC_ACQUIRE) != ticket) {}
    return ticket;
}

static void give(struct lock *l) { __atomic_store_n(&l->served, l->served + 1, __ATOMIC_RELEASE); }

static void *work(void *argument) {
    struct shared *s = argument;
    for (int i = 0; i < TURNS; i++) {
        unsigned ticket = take(&s->lock);
        if (s->raised != ticket) s->is_in_turn = 0;
        s->raised++;
        s->sum += ticket;
        give(&s->lock);
    }
    return 0;
}

static void run(struct shared *s) {
    thread ids[WORKERS];
    s->is_in_turn = 1;
    for (int i = 0; i < WORKERS; i++) pthread_create(&ids[i], 0, work, s);
    for (int i = 0; i < WORKERS; i++) pthread_join(ids[i], 0);
    print_i64(s->raised);
    print_i64(s->sum);
    print_i64(s->is_in_turn);
}

int main(void) {
    run(&shared);
    return 0;
}
