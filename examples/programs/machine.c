// A machine of ten instructions with a stack, which adds the numbers up to 100, multiplies those up to 12, and counts
// down from 50 by sevens. Prints 5050, 479001600, the numbers 50, 43, .. 1, -6, then 0 for a program that ended and -1
// for one with an unknown instruction.
void print_i64(long);

enum { PUSH, ADD, SUBTRACT, MULTIPLY, LOAD, STORE, JUMP, JUMP_IF_POSITIVE, PRINT, HALT };

struct machine { long next; long height; long stack[16]; long cells[8]; };

static struct machine state;

static long sum[] = {
    PUSH, 100, STORE, 0, PUSH, 0, STORE, 1,
    LOAD, 1, LOAD, 0, ADD, STORE, 1,
    LOAD, 0, PUSH, 1, SUBTRACT, STORE, 0,
    LOAD, 0, JUMP_IF_POSITIVE, 8,
    LOAD, 1, PRINT, HALT,
};

static long product[] = {
    PUSH, 12, STORE, 0, PUSH, 1, STORE, 1,
    LOAD, 1, LOAD, 0, MULTIPLY, STORE, 1,
    LOAD, 0, PUSH, 1, SUBTRACT, STORE, 0,
    LOAD, 0, JUMP_IF_POSITIVE, 8,
    LOAD, 1, PRINT, HALT,
};

static long count_down[] = {
    PUSH, 50, STORE, 2,
    LOAD, 2, PRINT,
    LOAD, 2, PUSH, 7, SUBTRACT, STORE, 2,
    LOAD, 2, JUMP_IF_POSITIVE, 4,
    JUMP, 20, LOAD, 2, PRINT, HALT,
};

static long unknown[] = { PUSH, 5, 77, HALT };

static void push(struct machine *m, long value) {
    m->stack[m->height] = value;
    m->height = m->height + 1;
}

static long pop(struct machine *m) {
    m->height = m->height - 1;
    return m->stack[m->height];
}

static long fetch(struct machine *m, long *code) {
    long word = code[m->next];
    m->next = m->next + 1;
    return word;
}

// Runs code up to its end: 0, or -1 where an instruction is unknown.
static long run(struct machine *m, long *code) {
    long a, b, going = 1;
    m->next = 0;
    m->height = 0;
    while (going == 1) {
        switch (fetch(m, code)) {
        case PUSH: push(m, fetch(m, code)); break;
        case ADD: b = pop(m); a = pop(m); push(m, a + b); break;
        case SUBTRACT: b = pop(m); a = pop(m); push(m, a - b); break;
        case MULTIPLY: b = pop(m); a = pop(m); push(m, a * b); break;
        case LOAD: push(m, m->cells[fetch(m, code)]); break;
        case STORE: a = fetch(m, code); m->cells[a] = pop(m); break;
        case JUMP: m->next = fetch(m, code); break;
        case JUMP_IF_POSITIVE:
            a = fetch(m, code);
            if (pop(m) > 0) m->next = a;
            break;
        case PRINT: print_i64(pop(m)); break;
        case HALT: going = 0; break;
        default: going = -1;
        }
    }
    return going;
}

int main(void) {
    run(&state, sum);
    run(&state, product);
    print_i64(run(&state, count_down));
    print_i64(run(&state, unknown));
    return 0;
}
