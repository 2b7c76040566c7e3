// Two threads push the numbers 1 to 20 each onto one stack without a lock, by compare-and-swap of its top; behind them
// two others, created once both have ended, pop all, sum what they got and free it. Prints 40, how many were popped; 420,
// their sum; and 1, since the stack is empty.
typedef unsigned long thread;
int pthread_create(thread *, const void *, void *(*)(void *), void *);
int pthread_join(thread, void **);
void *malloc(unsigned long);
void free(void *);
void print_i64(long);

enum { PUSHED = 20 };

struct node { struct node *next; long value; };

struct stack { struct node *top; long popped; long sum; };

static struct stack stack;

static void push(struct stack *s, struct node *n) {
    n->next = __atomic_load_n(&s->top, __ATOMIC_RELAXED);
    while (!__atomic_compare_exchange_n(&s->top, &n->next, n, 0, __ATOMIC_RELEASE, __ATOMIC_RELAXED)) {}
}

// Takes all at once, so that no node comes back while another thread looks at it.
static struct node *take_all(struct stack *s) { return __atomic_exchange_n(&s->top, 0, __ATOMIC_ACQUIRE); }

static void *pushes(void *argument) {
    for (int i = 1; i <= PUSHED; i++) {
        struct node *n = malloc(sizeof *n);
        n->value = i;
        push(argument, n);
    }
    return 0;
}

static void *pops(void *argument) {
    struct stack *s = argument;
    struct node *n = take_all(s);
    while (n != 0) {
        struct node *next = n->next;
        __atomic_fetch_add(&s->popped, 1, __ATOMIC_RELAXED);
        __atomic_fetch_add(&s->sum, n->value, __ATOMIC_RELAXED);
        free(n);
        n = next;
    }
    return 0;
}

static void two(struct stack *s, _Bool push_first) {
    thread a, b;
    if (push_first) {
        pthread_create(&a, 0, pushes, s);
        pthread_create(&b, 0, pushes, s);
    } else {
        pthread_create(&a, 0, pops, s);
        pthread_create(&b, 0, pops, s);
    }
    pthread_join(a, 0);
    pthread_join(b, 0);
}

static void run(struct stack *s) {
    two(s, 1);
    two(s, 0);
    print_i64(s->popped);
    print_i64(s->sum);
    print_i64(s->top == 0);
}

int main(void) {
    run(&stack);
    return 0;
}
