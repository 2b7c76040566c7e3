// Three threads move money between five accounts, each of which has a lock of a byte: the locks of two accounts are
// taken in the order of their numbers. Each thread keeps a list of what it moved on the heap, which main frees.
// Prints 60, how often money was moved; 500, what all accounts have together, as at first; 0, the locks that are held
// at the end; and 1, since each account is as at first when all that was noted is taken back.
typedef unsigned long thread;
int pthread_create(thread *, const void *, void *(*)(void *), void *);
int pthread_join(thread, void **);
void *malloc(unsigned long);
void free(void *);
void print_i64(long);

enum { ACCOUNTS = 5, CLERKS = 3, MOVES = 20 };

struct account { int money; _Bool held; };

struct note { struct note *next; int money; signed char from; signed char to; };

struct bank;

struct clerk { struct bank *bank; struct note *notes; unsigned short drawn; };

struct bank { struct account accounts[ACCOUNTS]; struct clerk clerks[CLERKS]; };

static struct bank bank;

static void take(struct account *a) {
    while (__atomic_exchange_n(&a->held, 1, __ATOMIC_ACQUIRE)) {}
}

static void give(struct account *a) { __atomic_store_n(&a->held, 0, __ATOMIC_RELEASE); }

static int draw(struct clerk *c, int below) {
    c->drawn = c->drawn * 75 + 74;
    return (c->drawn >> 8) % below;
}

static void move(struct bank *b, struct clerk *c, int from, int to, int money) {
    take(&b->accounts[from < to ? from : to]);
    take(&b->accounts[from < to ? to : from]);
    b->accounts[from].money -= money;
    b->accounts[to].money += money;
    give(&b->accounts[from]);
    give(&b->accounts[to]);
    struct note *n = malloc(sizeof *n);
    n->from = from;
    n->to = to;
    n->money = money;
    n->next = c->notes;
    c->notes = n;
}

static void *work(void *argument) {
    struct clerk *c = argument;
    for (int i = 0; i < MOVES; i++) {
        int from = draw(c, ACCOUNTS);
        int to = (from + 1 + draw(c, ACCOUNTS - 1)) % ACCOUNTS;
        move(c->bank, c, from, to, draw(c, 120));
    }
    return 0;
}

// Takes back what a clerk noted, and frees the list.
static int undo(struct bank *b, struct clerk *c) {
    int moved = 0;
    while (c->notes != 0) {
        struct note *n = c->notes;
        b->accounts[n->from].money += n->money;
        b->accounts[n->to].money -= n->money;
        c->notes = n->next;
        free(n);
        moved++;
    }
    return moved;
}

static void run(struct bank *b) {
    thread ids[CLERKS];
    for (int i = 0; i < ACCOUNTS; i++) b->accounts[i].money = 100;
    for (int i = 0; i < CLERKS; i++) {
        b->clerks[i].bank = b;
        b->clerks[i].drawn = i * 1000;
        pthread_create(&ids[i], 0, work, &b->clerks[i]);
    }
    for (int i = 0; i < CLERKS; i++) pthread_join(ids[i], 0);
    int total = 0, held = 0, moves = 0;
    _Bool is_as_before = 1;
    for (int i = 0; i < ACCOUNTS; i++) {
        total += b->accounts[i].money;
        held += b->accounts[i].held;
    }
    for (int i = 0; i < CLERKS; i++) moves += undo(b, &b->clerks[i]);
    for (int i = 0; i < ACCOUNTS; i++)
        if (b->accounts[i].money != 100) is_as_before = 0;
    print_i64(moves);
    print_i64(total);
    print_i64(held);
    print_i64(is_as_before);
}

int main(void) {
    run(&bank);
    return 0;
}
