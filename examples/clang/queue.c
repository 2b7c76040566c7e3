// A queue of numbers on a linked list: its last node is freed while another pointer to it stays behind.
#include <stdint.h>
void *malloc(uint64_t);
void free(void *);
void print_i64(int64_t);

struct node { int64_t value; struct node *next; };
struct queue { struct node *first, *last; };
static struct queue waiting;
static struct node *seen;

static void push(struct queue *queue, int64_t value) {
    struct node *n = malloc(sizeof *n);
    n->value = value;
    n->next = 0;
    if (queue->last) queue->last->next = n; else queue->first = n;
    queue->last = n;
}

static int64_t pop(struct queue *queue) {
    struct node *n = queue->first;
    int64_t value = n->value;
    seen = n;
    queue->first = n->next;
    if (!queue->first) queue->last = 0;
    free(n);
    return value;
}

int main(void) {
    for (int64_t i = 0; i < 3; i++) push(&waiting, i * i);
    int64_t sum = 0;
    while (waiting.first) sum += pop(&waiting);
    print_i64(sum);
    print_i64(seen->value);
    return 0;
}
