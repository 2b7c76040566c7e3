// Checksums over bytes: CRC-32 by a table and by bits, CRC-16, Adler-32, and the sum of the Internet; and sets of the
// numbers below 256, as the bits of bytes and of words.
// Prints the checksums of the bytes `123456789`, 3421780262 twice, 47933, 152961502 and 63018; 476132726, the CRC-32
// of 512 bytes, and 0, since it is another one where a bit is changed; 44, 147 and 34, how many squares there are
// modulo 256, cubes, and numbers that are both; 44 and 157, the squares, and what is a square or a cube, in the words;
// 0 and 249, the least and the greatest that is both; 1 and 0, whether 57 and 58 are squares; and -86, a byte of a set
// with its sign.
void print_i64(long);

typedef unsigned char byte;
typedef unsigned short half;
typedef unsigned int word;

static word table[256];
static byte message[] = "123456789";
static byte all[512];
static byte squares[32];
static byte cubes[32];
static byte both[32];
static word bits[8];

static void fill_table(word *t) {
    for (int i = 0; i < 256; i++) {
        word c = i;
        for (int k = 0; k < 8; k++) c = c & 1 ? 0xEDB88320u ^ (c >> 1) : c >> 1;
        t[i] = c;
    }
}

static word crc32(const word *t, const byte *p, int n) {
    word c = ~0u;
    for (int i = 0; i < n; i++) c = t[(c ^ p[i]) & 0xFF] ^ (c >> 8);
    return ~c;
}

static word crc32_by_bits(const byte *p, int n) {
    word c = ~0u;
    while (n-- > 0) {
        c ^= *p++;
        for (byte k = 0; k < 8; k++) c = (c >> 1) ^ (0xEDB88320u & -(c & 1));
    }
    return ~c;
}

static half crc16(const byte *p, int n) {
    half c = 0;
    while (n-- > 0) {
        c ^= *p++;
        for (byte k = 0; k < 8; k++) c = c & 1 ? (c >> 1) ^ 0xA001 : c >> 1;
    }
    return c;
}

static word adler32(const byte *p, int n) {
    half a = 1, b = 0;
    for (int i = 0; i < n; i++) {
        a = (a + p[i]) % 65521;
        b = (b + a) % 65521;
    }
    return (word)b << 16 | a;
}

static half internet_sum(const byte *p, int n) {
    word sum = 0;
    for (int i = 0; i < n; i += 2) sum += (p[i] << 8) + (i + 1 < n ? p[i + 1] : 0);
    while (sum >> 16) sum = (sum & 0xFFFF) + (sum >> 16);
    return ~sum;
}

static void put(byte *set, byte n) { set[n >> 3] |= 1 << (n & 7); }

static _Bool has(const byte *set, byte n) { return set[n >> 3] >> (n & 7) & 1; }

static int size(const byte *set) {
    int count = 0;
    for (int i = 0; i < 32; i++)
        for (byte b = set[i]; b != 0; b &= b - 1) count++;
    return count;
}

static void to_words(word *to, const byte *set) {
    for (int i = 0; i < 32; i++) to[i / 4] |= (word)set[i] << (8 * (i % 4));
}

static int size_of_words(const word *set) {
    int count = 0;
    for (int i = 0; i < 8; i++) {
        word w = set[i];
        w = w - (w >> 1 & 0x55555555);
        w = (w & 0x33333333) + (w >> 2 & 0x33333333);
        w = (w + (w >> 4)) & 0x0F0F0F0F;
        count += w * 0x01010101 >> 24;
    }
    return count;
}

static void checksums(word *t, byte *p, byte *long_text) {
    fill_table(t);
    print_i64(crc32(t, p, 9));
    print_i64(crc32_by_bits(p, 9));
    print_i64(crc16(p, 9));
    print_i64(adler32(p, 9));
    print_i64(internet_sum(p, 9));
    for (int i = 0; i < 512; i++) long_text[i] = i;
    word c = crc32(t, long_text, 512);
    print_i64(c);
    long_text[300] ^= 64;
    print_i64(crc32_by_bits(long_text, 512) == c);
}

static void sets(byte *a, byte *b, byte *in_both, word *w) {
    for (int i = 0; i < 256; i++) {
        put(a, i * i);
        put(b, i * i * i);
    }
    print_i64(size(a));
    print_i64(size(b));
    for (int i = 0; i < 32; i++) in_both[i] = a[i] & b[i];
    print_i64(size(in_both));
    to_words(w, a);
    print_i64(size_of_words(w));
    to_words(w, b);
    print_i64(size_of_words(w));
    int least = 0, greatest = 255;
    while (!has(in_both, least)) least++;
    while (!has(in_both, greatest)) greatest--;
    print_i64(least);
    print_i64(greatest);
    print_i64(has(a, 57));
    print_i64(has(a, 58));
    print_i64((signed char)b[16]);
}

int main(void) {
    checksums(table, message, all);
    sets(squares, cubes, both, bits);
    return 0;
}
