// Texts as bytes: it turns the words of a sentence round, counts its letters, compares texts in the order of a
// dictionary and sorts them, writes numbers in a base and reads them back, and packs runs of one byte.
// Prints 44, 9 and 35, the sentence's length, words and letters; 4 and 1, how often `o` and `q` stand in it; 100 and
// 84, the first bytes of the first and the last word of the sentence turned round; 1, since turning round twice gives
// it back; the places of five texts in order, 3 1 4 0 2; -1, 0 and 1, three comparisons; 11, -32768, 1001 and -46,
// numbers that were written and read; 8, the digits of a number in base 2; 12 and 1, the length of a packed text, and
// that unpacking undoes it; and 200, -56 and 34464, what is kept of numbers that are too large.
void print_i64(long);

static char sentence[] = "The quick brown fox jumps over the lazy dog.";
static char line[64];
static char packed[64];
static char digits[24];
static short letters[26];
static char *texts[] = { "pear", "apple", "pears", "", "banana" };
static int order[5];

static int length(const char *s) {
    int n = 0;
    while (s[n] != 0) n++;
    return n;
}

static void copy(char *to, const char *from) {
    while ((*to++ = *from++) != 0) {}
}

static int compare(const char *a, const char *b) {
    while (*a != 0 && *a == *b) {
        a++;
        b++;
    }
    int d = (unsigned char)*a - (unsigned char)*b;
    return d < 0 ? -1 : d > 0;
}

static _Bool is_letter(char c) { return (c >= 'a' && c <= 'z') || (c >= 'A' && c <= 'Z'); }

static int count_words(const char *s) {
    int n = 0;
    _Bool inside = 0;
    for (; *s != 0; s++) {
        if (is_letter(*s) && !inside) n++;
        inside = is_letter(*s);
    }
    return n;
}

static int count_letters(const char *s, short *counts) {
    int n = 0;
    for (; *s != 0; s++) {
        if (!is_letter(*s)) continue;
        counts[(*s | 32) - 'a']++;
        n++;
    }
    return n;
}

static void turn_round(char *from, char *to) {
    for (; from < to; from++, to--) {
        char kept = *from;
        *from = *to;
        *to = kept;
    }
}

// Each word of a text turned round, then the whole, so that the words stand in the other order.
static void turn_words(char *s) {
    char *word = s;
    char *at = s;
    for (;; at++) {
        if (*at != ' ' && *at != 0) continue;
        turn_round(word, at - 1);
        word = at + 1;
        if (*at == 0) break;
    }
    turn_round(s, at - 1);
}

static void sort(char **all, int *places, int n) {
    for (int i = 0; i < n; i++) {
        int at = i;
        for (; at > 0 && compare(all[places[at - 1]], all[i]) > 0; at--) places[at] = places[at - 1];
        places[at] = i;
    }
}

static char *write_number(char *end, long n, unsigned char base) {
    unsigned long rest = n < 0 ? -(unsigned long)n : (unsigned long)n;
    *--end = 0;
    do {
        unsigned char digit = rest % base;
        *--end = digit < 10 ? '0' + digit : 'a' + digit - 10;
        rest /= base;
    } while (rest != 0);
    if (n < 0) *--end = '-';
    return end;
}

static long read_number(const char *s, unsigned char base) {
    long n = 0;
    _Bool below = *s == '-';
    for (s += below; *s != 0; s++) n = n * base + (*s <= '9' ? *s - '0' : *s - 'a' + 10);
    return below ? -n : n;
}

static void pack(char *to, const char *from) {
    while (*from != 0) {
        signed char run = 1;
        while (from[run] == *from && run < 9) run++;
        *to++ = '0' + run;
        *to++ = *from;
        from += run;
    }
    *to = 0;
}

static void unpack(char *to, const char *from) {
    for (; *from != 0; from += 2)
        for (char n = *from - '0'; n > 0; n--) *to++ = from[1];
    *to = 0;
}

static void sentences(char *s, char *other, short *counts) {
    print_i64(length(s));
    print_i64(count_words(s));
    print_i64(count_letters(s, counts));
    print_i64(counts['o' - 'a']);
    print_i64(counts['q' - 'a']);
    copy(other, s);
    turn_words(other);
    print_i64(*other);
    print_i64(other[length(other) - 3]);
    turn_words(other);
    print_i64(compare(s, other) == 0);
}

static void dictionary(char **all, int *places) {
    sort(all, places, 5);
    for (int i = 0; i < 5; i++) print_i64(places[i]);
    print_i64(compare(all[0], all[2]));
    print_i64(compare(all[3], all[3]));
    print_i64(compare(all[2], all[0]));
}

static void numbers(char *room) {
    print_i64(read_number(write_number(room + 24, 11, 2), 2));
    print_i64(read_number(write_number(room + 24, -32768, 16), 16));
    print_i64(read_number(write_number(room + 24, 9, 2), 10));
    print_i64(read_number(write_number(room + 24, -0x2e, 36), 36));
    print_i64(length(write_number(room + 24, 200, 2)));
}

static void runs(char *to, char *back) {
    pack(to, "aaaaaaaaaaaabbbc   d");
    print_i64(length(to));
    unpack(back, to);
    print_i64(compare(back, "aaaaaaaaaaaabbbc   d") == 0);
}

static void narrow(unsigned char *byte, signed char *sign, unsigned short *half, int n) {
    *byte = n;
    *sign = n;
    *half = n * 500;
    print_i64(*byte);
    print_i64(*sign);
    print_i64(*half);
}

int main(void) {
    sentences(sentence, line, letters);
    dictionary(texts, order);
    numbers(digits);
    runs(packed, line);
    narrow((unsigned char *)digits, (signed char *)line, (unsigned short *)letters, 200);
    return 0;
}
