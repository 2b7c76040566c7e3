// A linked list in a pool of nodes: numbers are kept in order, every third is taken out, and the list is turned round.
// Prints the list after each: 2, 3, 6, 7, 10, 10; then 2, 3, 7, 10; then 10, 7, 3, 2; and at last 8, the free nodes.
void print_i64(long);

struct node { long value; struct node *next; };

struct pool { struct node *free; struct node *head; struct node nodes[12]; };

static struct pool pool;

static void start(struct pool *p) {
    p->head = 0;
    p->free = 0;
    for (long i = 11; i >= 0; i--) {
        struct node *n = &p->nodes[i];
        n->next = p->free;
        p->free = n;
    }
}

static void insert(struct pool *p, long value) {
    struct node **at = &p->head;
    while (*at != 0 && (*at)->value < value) at = &(*at)->next;
    struct node *n = p->free;
    p->free = n->next;
    n->value = value;
    n->next = *at;
    *at = n;
}

static void take_out(struct pool *p, struct node **at) {
    struct node *n = *at;
    *at = n->next;
    n->next = p->free;
    p->free = n;
}

static void take_every_third(struct pool *p) {
    struct node **at = &p->head;
    for (long i = 1; *at != 0; i++)
        if (i % 3 == 0) take_out(p, at); else at = &(*at)->next;
}

static void turn_round(struct pool *p) {
    struct node *done = 0, *rest = p->head;
    while (rest != 0) {
        struct node *n = rest;
        rest = n->next;
        n->next = done;
        done = n;
    }
    p->head = done;
}

static void show(struct node *n) {
    for (; n != 0; n = n->next) print_i64(n->value);
}

static long length(struct node *n) { return n == 0 ? 0 : 1 + length(n->next); }

static void work(struct pool *p) {
    start(p);
    for (long i = 1; i <= 6; i++) insert(p, i * 7 % 11 + i / 6);
    show(p->head);
    take_every_third(p);
    show(p->head);
    turn_round(p);
    show(p->head);
    print_i64(length(p->free));
}

int main(void) {
    work(&pool);
    return 0;
}
