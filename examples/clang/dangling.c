/* A list whose first node is freed while a local pointer still holds its address, which is then used.
   dangling.ll is what clang makes of this file, and dangling.instrumented.ll what `dangsan instrument` makes of that. */
#include <stdlib.h>

void print_i64(long value);

struct node {
    long value;
    struct node *next;
};

struct node *head;

void push(long value) {
    struct node *node = malloc(sizeof *node);
    node->value = value;
    node->next = head;
    head = node;
}

int main(void) {
    for (long i = 0; i < 3; i++)
        push(i * i);
    struct node *first = head;
    head = head->next;
    free(first);
    print_i64(first->value);
    return 0;
}
