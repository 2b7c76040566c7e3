// A linked list on the heap: 10 numbers are put in order into it, the even ones are taken out and freed, the rest is
// turned round, copied, and freed, and the copy too.
// Prints the list after each: 1, 2, 4, 5, 7, 8, 10, 11, 13, 14; 1, 5, 7, 11, 13; 13, 11, 7, 5, 1; of the copy the sum
// 37; and at last 15 and 15, the blocks that were taken and given back.
void *malloc(unsigned long);
void free(void *);
void print_i64(long);

struct node { long value; struct node *next; };

struct list { struct node *head; long taken; long given_back; };

static struct list first, second;

static struct node *take(struct list *l, long value, struct node *next) {
    struct node *n = malloc(sizeof *n);
    n->value = value;
    n->next = next;
    l->taken++;
    return n;
}

static void give_back(struct list *l, struct node *n) {
    free(n);
    l->given_back++;
}

static void insert(struct list *l, long value) {
    struct node **at = &l->head;
    while (*at != 0 && (*at)->value < value) at = &(*at)->next;
    *at = take(l, value, *at);
}

static void take_even_out(struct list *l) {
    struct node **at = &l->head;
    while (*at != 0) {
        struct node *n = *at;
        if (n->value % 2 == 0) {
            *at = n->next;
            give_back(l, n);
        } else {
            at = &n->next;
        }
    }
}

static void turn_round(struct list *l) {
    struct node *done = 0, *rest = l->head;
    while (rest != 0) {
        struct node *n = rest;
        rest = n->next;
        n->next = done;
        done = n;
    }
    l->head = done;
}

static void copy(struct list *to, struct node *n) {
    struct node **end = &to->head;
    for (; n != 0; n = n->next) {
        *end = take(to, n->value, 0);
        end = &(*end)->next;
    }
}

static void give_all_back(struct list *l) {
    while (l->head != 0) {
        struct node *n = l->head;
        l->head = n->next;
        give_back(l, n);
    }
}

static void show(struct node *n) {
    for (; n != 0; n = n->next) print_i64(n->value);
}

static long sum(struct node *n) { return n == 0 ? 0 : n->value + sum(n->next); }

static void work(struct list *l, struct list *other) {
    for (long i = 0; i < 10; i++) insert(l, i * 7 % 10 * 3 / 2 + 1);
    show(l->head);
    take_even_out(l);
    show(l->head);
    turn_round(l);
    show(l->head);
    copy(other, l->head);
    give_all_back(l);
    print_i64(sum(other->head));
    give_all_back(other);
    print_i64(l->taken + other->taken);
    print_i64(l->given_back + other->given_back);
}

int main(void) {
    work(&first, &second);
    return 0;
}
