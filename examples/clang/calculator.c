// A calculator on a small stack, with a switch, shifts and divisions.
#include <stdint.h>
void print_i64(int64_t);

static int32_t stack[8];
static uint8_t depth;

static void push(int32_t x) { if (depth < 8) stack[depth++] = x; }
static int32_t pop(void) { return depth ? stack[--depth] : 0; }

static void apply(char op) {
    int32_t b = pop(), a = pop();
    switch (op) {
    case '+': push(a + b); break;
    case '-': push(a - b); break;
    case '*': push(a * b); break;
    case '/': push(b ? a / b : 0); break;
    case '<': push(a << (b & 31)); break;
    case '&': push(a & b); break;
    default: push(0);
    }
}

int main(void) {
    static const char program[] = "34+2*1<";
    for (int i = 0; program[i]; i++)
        if (program[i] >= '0' && program[i] <= '9') push(program[i] - '0'); else apply(program[i]);
    print_i64(pop());
    return 0;
}
