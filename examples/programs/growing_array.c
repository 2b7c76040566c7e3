// Arrays that grow: each takes twice the room where it is full, copies what it holds, and frees the old room. Two
// grow in turn, one with the numbers from 0 to 249 and the other with their squares; then a third one takes the
// numbers that both hold, and all is freed.
// Prints the lengths 250 and 250, the rooms 256 and 256, 16, the blocks taken so far, the last numbers 249 and 62001,
// and the sum of the squares 5177125; of the third one the length 16, the room 16, the last number 225 and the sum
// 1240; and at last 0, the blocks that are left.
void *malloc(unsigned long);
void free(void *);
void print_i64(long);

struct array { long *numbers; long length; long room; };

struct work { struct array numbers, squares, both; long taken; long given_back; };

static struct work work;

static long *take(struct work *w, long room) {
    w->taken++;
    return malloc(room * sizeof(long));
}

static void give_back(struct work *w, long *numbers) {
    if (numbers != 0) w->given_back++;
    free(numbers);
}

static void grow(struct work *w, struct array *a) {
    long room = a->room == 0 ? 2 : a->room * 2;
    long *numbers = take(w, room);
    for (long i = 0; i < a->length; i++) numbers[i] = a->numbers[i];
    give_back(w, a->numbers);
    a->numbers = numbers;
    a->room = room;
}

static void push(struct work *w, struct array *a, long number) {
    if (a->length == a->room) grow(w, a);
    a->numbers[a->length] = number;
    a->length++;
}

static long last(struct array *a) { return a->numbers[a->length - 1]; }

static long sum(struct array *a) {
    long all = 0;
    for (long i = 0; i < a->length; i++) all += a->numbers[i];
    return all;
}

static void find_both(struct work *w) {
    long j = 0;
    for (long i = 0; i < w->numbers.length; i++) {
        while (w->squares.numbers[j] < w->numbers.numbers[i]) j++;
        if (w->squares.numbers[j] == w->numbers.numbers[i]) push(w, &w->both, w->numbers.numbers[i]);
    }
}

static void do_work(struct work *w) {
    for (long i = 0; i < 250; i++) {
        push(w, &w->numbers, i);
        push(w, &w->squares, i * i);
    }
    print_i64(w->numbers.length);
    print_i64(w->squares.length);
    print_i64(w->numbers.room);
    print_i64(w->squares.room);
    print_i64(w->taken);
    print_i64(last(&w->numbers));
    print_i64(last(&w->squares));
    print_i64(sum(&w->squares));
    find_both(w);
    print_i64(w->both.length);
    print_i64(w->both.room);
    print_i64(last(&w->both));
    print_i64(sum(&w->both));
    give_back(w, w->numbers.numbers);
    give_back(w, w->squares.numbers);
    give_back(w, w->both.numbers);
    print_i64(w->taken - w->given_back);
}

int main(void) {
    do_work(&work);
    return 0;
}
