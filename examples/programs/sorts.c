// Sorts by exchanging neighbours, and by splitting at a middle value, which calls itself. Prints the first, middle and
// last of 40 numbers, 17, 751, 595; 362, the exchanges that the first sort made; the same three after each of the sorts,
// 0, 575, 1001 twice; and 1, since both gave the same.
void print_i64(long);

enum { COUNT = 40 };

static long left[COUNT], right[COUNT];

static void fill(long *a, long n) {
    long seed = 17;
    for (long i = 0; i < n; i++) {
        a[i] = seed;
        seed = (seed * 421 + 63) % 1009;
    }
}

static void swap(long *a, long *b) {
    long kept = *a;
    *a = *b;
    *b = kept;
}

// Sorts by exchanges of neighbours, and answers how many were made.
static long bubble_sort(long *a, long n) {
    long exchanges = 0;
    for (long end = n - 1; end > 0; end--)
        for (long i = 0; i < end; i++)
            if (a[i] > a[i + 1]) {
                swap(&a[i], &a[i + 1]);
                exchanges++;
            }
    return exchanges;
}

// Sorts the numbers from low to high, both inclusive.
static void quicksort(long *a, long low, long high) {
    if (low >= high) return;
    long middle = a[(low + high) / 2], i = low, j = high;
    while (i <= j) {
        while (a[i] < middle) i++;
        while (a[j] > middle) j--;
        if (i <= j) {
            swap(&a[i], &a[j]);
            i++;
            j--;
        }
    }
    quicksort(a, low, j);
    quicksort(a, i, high);
}

static long are_same(long *a, long *b, long n) {
    for (long i = 0; i < n; i++)
        if (a[i] != b[i]) return 0;
    return 1;
}

static void show(long *a, long n) {
    print_i64(a[0]);
    print_i64(a[n / 2]);
    print_i64(a[n - 1]);
}

int main(void) {
    fill(left, COUNT);
    fill(right, COUNT);
    show(left, COUNT);
    print_i64(bubble_sort(left, COUNT));
    show(left, COUNT);
    quicksort(right, 0, COUNT - 1);
    show(right, COUNT);
    print_i64(are_same(left, right, COUNT));
    return 0;
}
