/* Functions of several kinds, whose code at -O2 is the source of the case `code`. */
#include <stddef.h>
#include <stdint.h>
#include <stdlib.h>
#include <string.h>

struct node { struct node *left, *right; uint64_t key; int height; };
struct buffer { unsigned char *data; size_t size, room; };
struct point { double x, y, z; };

static const uint32_t round_constants[8] = { 0x428a2f98, 0x71374491, 0xb5c0fbcf, 0xe9b5dba5, 0x3956c25b, 0x59f111f1, 0x923f82a4, 0xab1c5ed5 };
static uint32_t crc_table[256];
static int counters[64];
extern int limit;
extern void report(const char *text, int value);
extern double weights[];

static int height_of(const struct node *n) { return n ? n->height : 0; }

static struct node *turned(struct node *n) {
    struct node *up = n->left;
    n->left = up->right;
    up->right = n;
    n->height = 1 + (height_of(n->left) > height_of(n->right) ? height_of(n->left) : height_of(n->right));
    return up;
}

struct node *insert(struct node *at, uint64_t key) {
    if (!at) {
        struct node *made = malloc(sizeof *made);
        if (made) *made = (struct node){ 0, 0, key, 1 };
        return made;
    }
    if (key < at->key) at->left = insert(at->left, key);
    else if (key > at->key) at->right = insert(at->right, key);
    if (height_of(at->left) > height_of(at->right) + 1) at = turned(at);
    return at;
}

void make_crc(void) {
    for (uint32_t i = 0; i < 256; i++) {
        uint32_t c = i;
        for (int k = 0; k < 8; k++) c = c & 1 ? 0xedb88320u ^ c >> 1 : c >> 1;
        crc_table[i] = c;
    }
}

uint32_t crc(uint32_t seed, const unsigned char *p, size_t n) {
    uint32_t c = ~seed;
    while (n--) c = crc_table[(c ^ *p++) & 255] ^ c >> 8;
    return ~c;
}

#define ROTATED(x, n) ((x) >> (n) | (x) << (32 - (n)))

void digest(uint32_t state[8], const uint32_t block[16]) {
    uint32_t a = state[0], b = state[1], c = state[2], d = state[3], e = state[4], f = state[5], g = state[6], h = state[7];
    for (int i = 0; i < 64; i++) {
        uint32_t s = ROTATED(e, 6) ^ ROTATED(e, 11) ^ ROTATED(e, 25), m = (e & f) ^ (~e & g);
        uint32_t t = h + s + m + round_constants[i & 7] + block[i & 15];
        uint32_t u = (ROTATED(a, 2) ^ ROTATED(a, 13) ^ ROTATED(a, 22)) + ((a & b) ^ (a & c) ^ (b & c));
        h = g; g = f; f = e; e = d + t; d = c; c = b; b = a; a = t + u;
    }
    state[0] += a; state[1] += b; state[2] += c; state[3] += d; state[4] += e; state[5] += f; state[6] += g; state[7] += h;
}

int append(struct buffer *to, const void *from, size_t n) {
    if (to->room - to->size < n) {
        size_t room = to->room * 2 + n;
        unsigned char *data = realloc(to->data, room);
        if (!data) { report("no room", (int)n); return -1; }
        to->data = data;
        to->room = room;
    }
    memcpy(to->data + to->size, from, n);
    to->size += n;
    return 0;
}

double distance_of(const struct point *p, size_t n, struct point *middle) {
    double sum = 0, x = 0, y = 0, z = 0;
    for (size_t i = 0; i < n; i++) {
        x += p[i].x * weights[i]; y += p[i].y * weights[i]; z += p[i].z * weights[i];
        sum += p[i].x * p[i].x + p[i].y * p[i].y + p[i].z * p[i].z;
    }
    middle->x = x / (double)n; middle->y = y / (double)n; middle->z = z / (double)n;
    return sum > 1e9 ? 1.5 : sum * 0.25 + (float)n;
}

void multiply(float *c, const float *a, const float *b, int n) {
    for (int i = 0; i < n; i++)
        for (int j = 0; j < n; j++) {
            float s = 0;
            for (int k = 0; k < n; k++) s += a[i * n + k] * b[k * n + j];
            c[i * n + j] = s;
        }
}

static void swap(int64_t *a, int64_t *b) { int64_t t = *a; *a = *b; *b = t; }

void sort(int64_t *v, long low, long high) {
    while (low < high) {
        int64_t middle = v[low + (high - low) / 2];
        long i = low, j = high;
        while (i <= j) {
            while (v[i] < middle) i++;
            while (v[j] > middle) j--;
            if (i <= j) swap(&v[i++], &v[j--]);
        }
        sort(v, low, j);
        low = i;
    }
}

size_t encode64(char *out, const unsigned char *in, size_t n) {
    static const char digits[] = "ABCDEFGHIJKLMNOPQRSTUVWXYZabcdefghijklmnopqrstuvwxyz0123456789+/";
    char *p = out;
    for (size_t i = 0; i + 2 < n; i += 3) {
        unsigned v = in[i] << 16 | in[i + 1] << 8 | in[i + 2];
        *p++ = digits[v >> 18]; *p++ = digits[v >> 12 & 63]; *p++ = digits[v >> 6 & 63]; *p++ = digits[v & 63];
    }
    *p = 0;
    return (size_t)(p - out);
}

int count(const char *text, unsigned char what) {
    int n = 0;
    for (; *text; text++) {
        counters[(unsigned char)*text & 63]++;
        n += (unsigned char)*text == what;
    }
    if (n > limit) report(text, n);
    return n;
}

uint64_t power(uint64_t base, uint64_t exponent, uint64_t modulus) {
    unsigned __int128 result = 1, b = base % modulus;
    for (; exponent; exponent >>= 1) {
        if (exponent & 1) result = result * b % modulus;
        b = b * b % modulus;
    }
    return (uint64_t)result;
}

long parse(const char *text, int *bad) {
    long value = 0;
    int minus = *text == '-';
    for (text += minus; *text >= '0' && *text <= '9'; text++) value = value * 10 + (*text - '0');
    *bad = *text != 0;
    return minus ? -value : value;
}

void blend(uint8_t *to, const uint8_t *one, const uint8_t *other, size_t n, int part) {
    for (size_t i = 0; i < n; i++) to[i] = (uint8_t)((one[i] * part + other[i] * (256 - part)) >> 8);
}

short clipped(int a, int b, unsigned shift) {
    int v = (a * b) >> (shift & 15);
    return (short)(v > 32767 ? 32767 : v < -32768 ? -32768 : v);
}

int dispatch(int kind, int value) {
    switch (kind) {
    case 0: return value + 1;
    case 1: return value * 7;
    case 2: return value / 3;
    case 3: return value % 10;
    case 4: report("kind", value); return 0;
    default: return kind ^ value;
    }
}
