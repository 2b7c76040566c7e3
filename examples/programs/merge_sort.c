// Sorts 32 numbers: a thread that has more than eight gives the first half to a thread of its own, sorts the second
// half itself, and merges both, in heap memory that it frees. Prints the least, the median and the greatest number, -48,
// 7 and 48; 1, since no number is below the one before it; and 3, how many threads were created.
typedef unsigned long thread;
int pthread_create(thread *, const void *, void *(*)(void *), void *);
int pthread_join(thread, void **);
void *malloc(unsigned long);
void free(void *);
void print_i64(long);

enum { COUNT = 32, FEW = 8 };

struct part { int *numbers; int count; int *created; };

static int numbers[COUNT];
static int created;

static void insert(int *n, int count) {
    for (int i = 1; i < count; i++) {
        int x = n[i], at = i;
        for (; at > 0 && n[at - 1] > x; at--) n[at] = n[at - 1];
        n[at] = x;
    }
}

static void merge(int *n, int half, int count) {
    int *out = malloc(count * sizeof *out);
    int a = 0, b = half;
    for (int i = 0; i < count; i++)
        if (b == count || (a < half && n[a] <= n[b])) out[i] = n[a++];
        else out[i] = n[b++];
    for (int i = 0; i < count; i++) n[i] = out[i];
    free(out);
}

static void *sort(void *argument) {
    struct part *p = argument;
    if (p->count <= FEW) {
        insert(p->numbers, p->count);
        return 0;
    }
    int half = p->count / 2;
    struct part *first = malloc(sizeof *first);
    struct part *second = malloc(sizeof *second);
    first->numbers = p->numbers;
    second->numbers = p->numbers + half;
    first->count = half;
    second->count = p->count - half;
    first->created = second->created = p->created;
    thread id;
    __atomic_fetch_add(p->created, 1, __ATOMIC_RELAXED);
    pthread_create(&id, 0, sort, first);
    sort(second);
    pthread_join(id, 0);
    free(first);
    free(second);
    merge(p->numbers, half, p->count);
    return 0;
}

static void run(int *n, int *made) {
    struct part all;
    int x = 11, is_sorted = 1;
    for (int i = 0; i < COUNT; i++) {
        n[i] = x % 100 - 50;
        x = x * 37 % 10007;
    }
    all.numbers = n;
    all.count = COUNT;
    all.created = made;
    sort(&all);
    for (int i = 1; i < COUNT; i++) is_sorted &= n[i - 1] <= n[i];
    print_i64(n[0]);
    print_i64(n[COUNT / 2]);
    print_i64(n[COUNT - 1]);
    print_i64(is_sorted);
    print_i64(*made);
}

int main(void) {
    run(numbers, &created);
    return 0;
}
