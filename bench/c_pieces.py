"""Pieces of C programs that random statements do not come to: each is a function without parameters, with what it stands on, and prints what it finds.

In the texts `$a`, `$b` and `$c` stand for odd numbers of up to 16 bits, `$few` for one from 3 to 9, `$type` for an integer type of at least 32 bits without
sign and `$form` for what `printf` reads it by. Nothing of them is undefined, whatever these are. The names of a piece begin with its own.
"""
import random
from string import Template

PIECES = {
    "sorted": """\
struct sorted_entry { uint16_t key; const char *name; double weight; };
static int sorted_compare(const void *a, const void *b) {
    const struct sorted_entry *one = a, *other = b;
    if (one->key != other->key) return one->key < other->key ? -1 : 1;
    return strcmp(one->name, other->name);
}
static int sorted_by_weight(const void *a, const void *b) {
    double one = ((const struct sorted_entry *)a)->weight, other = ((const struct sorted_entry *)b)->weight;
    return (one > other) - (one < other);
}
static void sorted(void) {
    static const char *const names[] = { "alpha", "beta", "gamma", "delta", "a longer name with blanks", "" };
    struct sorted_entry entries[24];
    uint32_t state = $a;
    for (int i = 0; i < 24; i++) {
        state = state * 1103515245u + $b;
        entries[i] = (struct sorted_entry){ (uint16_t)(state >> 16 & $few), names[state >> 20 & 3], (double)(state >> 8) / $c };
    }
    for (int way = 0; way < 2; way++) {
        qsort(entries, 24, sizeof *entries, way ? sorted_by_weight : sorted_compare);
        for (int i = 0; i < 24; i += $few) printf("%u %s %.9g\\n", entries[i].key, entries[i].name, entries[i].weight);
    }
}
""",
    "linked": """\
struct linked_node { struct linked_node *next; const struct linked_node *const *table; $type key; };
static struct linked_node linked_second;
extern struct linked_node linked_third;
static const struct linked_node *const linked_table[] = { &linked_second, 0, &linked_third };
static struct linked_node linked_first = { &linked_second, linked_table + 1, $a };
static struct linked_node linked_second = { &linked_third, linked_table, $b };
struct linked_node linked_third = { &linked_first, &linked_table[2], $c };
static $type *linked_keys[] = { &linked_third.key, &linked_first.key, &linked_second.key };
static const char linked_text[] = "a text that others point into", *linked_end = linked_text + sizeof linked_text - 5;
static void linked(void) {
    const struct linked_node *at = &linked_first;
    for (int i = 0; i < $few; i++, at = at->next) {
        const struct linked_node *found = *at->table;
        *linked_keys[i % 3] += found ? found->key : 1;
        printf("$form %s\\n", at->key, linked_end - i);
    }
}
""",
    "tree": """\
struct tree_node { struct tree_node *left, *right; $type key; int height; };
static int tree_height(const struct tree_node *n) { return n ? n->height : 0; }
static void tree_update(struct tree_node *n) {
    int left = tree_height(n->left), right = tree_height(n->right);
    n->height = (left > right ? left : right) + 1;
}
static struct tree_node *tree_insert(struct tree_node *at, $type key) {
    if (!at) {
        struct tree_node *made = calloc(1, sizeof *made);
        if (!made) abort();
        made->key = key;
        made->height = 1;
        return made;
    }
    if (key == at->key) return at;
    if (key < at->key) at->left = tree_insert(at->left, key);
    else at->right = tree_insert(at->right, key);
    if (tree_height(at->left) > tree_height(at->right) + 1) {
        struct tree_node *up = at->left;
        at->left = up->right;
        up->right = at;
        tree_update(at);
        at = up;
    }
    tree_update(at);
    return at;
}
static $type tree_sum(struct tree_node *at, int depth) {
    if (!at) return 0;
    $type sum = at->key * (unsigned)depth + tree_sum(at->left, depth + 1) - tree_sum(at->right, depth + 1);
    free(at);
    return sum;
}
static void tree(void) {
    struct tree_node *root = 0;
    $type key = $a;
    for (int i = 0; i < 200; i++) root = tree_insert(root, (key = key * $b + $c) >> 5);
    int height = root->height;
    printf("%d $form\\n", height, tree_sum(root, 1));
}
""",
    "machine": """\
static long machine_run(const unsigned char *at, long value) {
    static const void *const steps[] = { &&add, &&multiply, &&negate, &&jump, &&shift, &&halt };
    long stack[4] = { 0 };
    unsigned rounds = 0;
    goto *steps[*at % 6];
add: value = (long)((unsigned long)value + at[1]); at += 2; goto *steps[*at % 6];
multiply: value = (long)((unsigned long)value * $a); stack[*at & 3] = value; at++; goto *steps[*at % 6];
negate: value = ~value ^ stack[at[0] >> 6]; at++; goto *steps[*at % 6];
jump: if (rounds++ < $few) at -= at[1]; else at += 2; goto *steps[*at % 6];
shift: value >>= at[1] & 7; at += 2; goto *steps[*at % 6];
halt: return value + rounds;
}
static void machine(void) {
    static const unsigned char code[] = { 0, $few, 1, 0, 200, 4, 3, 66, 3, 7, 0, 17, 199, 9, 2, 5 };
    for (long n = -$few; n < $few; n++) printf("%ld\\n", machine_run(code, n * $b));
}
""",
    "variadic": """\
static double variadic_sum(const char *kinds, ...) {
    va_list arguments, again;
    double sum = 0;
    va_start(arguments, kinds);
    va_copy(again, arguments);
    for (; *kinds; kinds++)
        switch (*kinds) {
        case 'i': sum += va_arg(arguments, int); break;
        case 'l': sum -= (double)va_arg(arguments, long); break;
        case 'd': sum += va_arg(arguments, double) * 2; break;
        case 's': sum += (double)strlen(va_arg(arguments, char *)); break;
        case 'c': sum += va_arg(arguments, int) & 0x7f; break;
        default: sum = -sum;
        }
    sum += va_arg(again, int);
    va_end(again);
    va_end(arguments);
    return sum;
}
static void variadic(void) {
    printf("%.17g\\n", variadic_sum("iildsxcd", -$a, $b, $c * 100000L, 1.25, "some text", 'q', 2.5f));
    printf("%.17g\\n", variadic_sum("iddddddddddiiiiii", $few, 1., 2., 3., 4., 5., 6., 7., 8., 9., $a / 4., 1, 2, 3, 4, 5, $b));
    char text[80];
    int length = snprintf(text, sizeof text, "%-8s|%+05d|%c|%x|%.3e|%lu", "left", $a, 'z', $b, $c * 1e10, 1ul << 63);
    printf("%d %s\\n", length, text);
}
""",
    "by_value": """\
struct by_value_small { int16_t a; uint8_t b; };
struct by_value_pair { double x; int64_t n; };
struct by_value_floats { float x, y, z; };
struct by_value_large { $type words[7]; struct by_value_small small; };
union by_value_both { uint64_t whole; uint8_t bytes[8]; struct { uint32_t low, high; } halves; double number; };
static struct by_value_small by_value_one(struct by_value_small s, int by) { s.a = (int16_t)(s.a * by); s.b ^= 0x55; return s; }
struct by_value_pair by_value_two(struct by_value_pair p, struct by_value_floats f) { return (struct by_value_pair){ p.x + f.x * f.z, p.n - (int64_t)f.y }; }
__attribute__((noinline)) struct by_value_large by_value_three(struct by_value_large l, int at) {
    l.words[at % 7] += l.words[6] * $a;
    l.small = by_value_one(l.small, at);
    return l;
}
static union by_value_both by_value_four(union by_value_both u) { u.halves.high ^= u.halves.low >> 3; u.bytes[2] = $few; return u; }
static void by_value(void) {
    struct by_value_large large = { { $a, $b, $c, 4, 5, 6, 7 }, { -$few, 200 } };
    struct by_value_pair pair = { 0.5, $b };
    union by_value_both both = { $a * 0x100000001u };
    for (int i = 0; i < $few; i++) {
        large = by_value_three(large, i + 1);
        pair = by_value_two(pair, (struct by_value_floats){ (float)i, pair.n > 0 ? 2.5f : -7.f, $few });
        both = by_value_four(both);
        printf("$form %d %u %.17g %ld %lx\\n", large.words[i % 7], large.small.a, large.small.b, pair.x, pair.n, both.whole);
    }
}
""",
    "bit_fields": """\
struct bit_fields_packed { unsigned a : $few, b : 1, c : 11; int d : 5, : 3, e : 7; uint64_t f : 37, g : 20; unsigned h : 4; } __attribute__((packed));
struct bit_fields_plain { unsigned short low : 9, high : 7; signed char small : 3; _Bool flag : 1; unsigned : 0; unsigned last : 31; };
static struct bit_fields_packed bit_fields_static = { 3, 1, 1000, -7, 33, $a * 77777u, $b, 9 };
static void bit_fields(void) {
    struct bit_fields_plain plain = { 300, 99, -2, 1, $c };
    struct bit_fields_packed *at = &bit_fields_static;
    for (unsigned i = 0; i < 3 * $few; i++) {
        at->a += i; at->b ^= at->a & 1; at->c = at->c * 3u + plain.low; at->d = (int)(at->c & 15) - 8; at->e = (int)(at->g & 31) - at->b;
        at->f = at->f * $a + at->h; at->g -= at->c; at->h++;
        plain.low ^= at->f; plain.high += plain.flag; plain.small = (int)(i & 3) - 2; plain.flag = plain.last > $b; plain.last += $c;
        printf("%u %u %u %d %d %lu %lu %u, ", at->a, at->b, at->c, at->d, at->e, (uint64_t)at->f, (uint64_t)at->g, at->h);
        printf("%u %u %d %d %u\\n", plain.low, plain.high, plain.small, plain.flag, plain.last);
    }
}
""",
    "texts": """\
static char *texts_turned(char *text) {
    for (char *from = text, *to = text + strlen(text); from < to--; from++) { char kept = *from; *from = *to; *to = kept; }
    return text;
}
static unsigned texts_hash(const char *text) {
    unsigned hash = $a;
    while (*text) hash = hash * 33 ^ (unsigned char)*text++;
    return hash;
}
static const char *texts_kind(int c) {
    switch (c) {
    case 'a': case 'e': case 'i': case 'o': case 'u': return "vowel";
    case '0' ... '9': return "digit";
    case ' ': case '\\t': case '\\n': return "blank";
    case 'x': return 0;
    default: return c & 0x80 ? "high" : "other";
    }
}
static void texts(void) {
    static const char *const lines[] = {
        "one line\\n", "tab\\there \\"quoted\\" \\\\ back", "\\001\\033[0m\\377 octal", "x = ($few + y) * 3; /* no */ # none", "\\xc3\\xa9t\\xc3\\xa9",
    };
    static const __WCHAR_TYPE__ wide[] = L"wide \\u00e9 text";
    const uint16_t *units = u"units \\u20ac";
    char copy[64] = "";
    for (unsigned i = 0; i < sizeof lines / sizeof *lines; i++) {
        strcpy(copy, lines[i]);
        printf("%u %u", texts_hash(copy), texts_hash(texts_turned(copy)));
        for (char *at = copy; *at; at++) { const char *kind = texts_kind(*at); tell(kind ? texts_hash(kind) : 7); }
        memmove(copy + 1, copy, 20);
        memset(copy + 9, '-', 3);
        copy[15] = 0;
        printf(" %s %d %d\\n", copy + 8, strcmp(copy, lines[i]) > 0, strchr(lines[i], '$few') != 0);
    }
    for (int i = 0; units[i] && wide[i]; i++) tell((uint64_t)wide[i] * units[i]);
}
""",
    "matrices": """\
static double matrices_left[6][6], matrices_right[6][6] = { { 1, 2, 3 }, { [4] = -$few }, [3] = { 0.5, 1e3, $a } };
static float matrices_small[4][16];
__attribute__((noinline)) void matrices_multiply(double (*to)[6], double (*a)[6], double (*b)[6]) {
    for (int i = 0; i < 6; i++)
        for (int j = 0; j < 6; j++) {
            double sum = 0;
            for (int k = 0; k < 6; k++) sum += a[i][k] * b[k][j];
            to[i][j] = sum;
        }
}
static void matrices(void) {
    double product[6][6];
    for (int i = 0; i < 36; i++) matrices_left[i / 6][i % 6] = (i * $b % 101) / 8.0 - 3;
    for (int round = 0; round < 3; round++) {
        matrices_multiply(product, matrices_left, matrices_right);
        for (int i = 0; i < 36; i++) matrices_right[i % 6][i / 6] += product[i / 6][i % 6] / (1 + __builtin_fabs(product[i % 6][i / 6]));
    }
    for (int i = 0; i < 64; i++) matrices_small[i & 3][i >> 2] = (float)i / $few + (unsigned)i * 1.5f;
    for (int i = 1; i < 4; i++) for (int j = 0; j < 16; j++) matrices_small[0][j] += matrices_small[i][j] * matrices_small[i - 1][15 - j];
    printf("%.17g %.17g %.9g %.9g\\n", product[1][2], matrices_right[5][0], matrices_small[0][3], matrices_small[0][12]);
}
""",
    "recursion": """\
static unsigned recursion_odd(unsigned n);
static unsigned recursion_even(unsigned n) { return n == 0 ? 1 : recursion_odd(n - 1) * 3; }
static unsigned recursion_odd(unsigned n) { return n == 0 ? $few : recursion_even(n - 1) + n; }
unsigned recursion_peter(unsigned m, unsigned n) {
    return m == 0 ? n + 1 : n == 0 ? recursion_peter(m - 1, 1) : recursion_peter(m - 1, recursion_peter(m, n - 1));
}
static void recursion_moves(int n, char from, char to, char by, $type *moves) {
    if (n == 0) return;
    recursion_moves(n - 1, from, by, to, moves);
    *moves = *moves * 5 + (unsigned)(from * 2 + to);
    recursion_moves(n - 1, by, to, from, moves);
}
static $type recursion_divisor($type a, $type b) { return b ? recursion_divisor(b, a % b) : a; }
static void recursion(void) {
    $type moves = 0;
    recursion_moves($few, 'a', 'b', 'c', &moves);
    printf("%u %u $form $form\\n", recursion_even($a % 40), recursion_peter(2, $few), moves, recursion_divisor(($type)$a * $c, ($type)$b * $c));
}
""",
    "wide": """\
typedef unsigned __int128 wide_number;
static wide_number wide_power(wide_number base, uint64_t exponent) {
    wide_number result = 1;
    for (; exponent; exponent >>= 1, base *= base) if (exponent & 1) result *= base;
    return result;
}
static void wide(void) {
    wide_number number = wide_power($a, $few * 3 + 1), other = ((wide_number)$b << 70) - $c;
    __int128 less = (__int128)(number >> 2) - (__int128)(other >> 1);
    for (int i = 1; i < 120; i += 13) {
        wide_number mixed = (number << i | number >> (128 - i)) ^ (other >> i) + number * other;
        less = less / 3 + i;
        printf("%016lx%016lx %d %lx\\n", (uint64_t)(mixed >> 64), (uint64_t)mixed, mixed < number ? 1 : less < 0 ? 2 : 3, (uint64_t)(less >> 5));
    }
    printf("%lu %lx %.17g\\n", (uint64_t)(number / (other | 1) % $c), (uint64_t)(other % $a), (double)number);
}
""",
    "atomics": """\
static int atomics_count = $few;
uint64_t atomics_whole = $a;
static unsigned char atomics_lock;
static uint16_t atomics_half;
static void atomics(void) {
    for (int i = 0; i < $few; i++) {
        int before = __atomic_fetch_add(&atomics_count, i * $b % 100, __ATOMIC_SEQ_CST);
        uint64_t expected = i & 1 ? atomics_whole : 5, was = __atomic_fetch_or(&atomics_whole, $c, __ATOMIC_ACQ_REL);
        int swapped = __atomic_compare_exchange_n(&atomics_whole, &expected, was * 3 + 1, 0, __ATOMIC_SEQ_CST, __ATOMIC_RELAXED);
        int taken = __atomic_test_and_set(&atomics_lock, __ATOMIC_ACQUIRE);
        uint16_t half = __atomic_exchange_n(&atomics_half, (uint16_t)(before + $a), __ATOMIC_SEQ_CST);
        __sync_fetch_and_sub(&atomics_half, i);
        __sync_synchronize();
        if (i % 3 == 0) __atomic_clear(&atomics_lock, __ATOMIC_RELEASE);
        printf("%d %lu %d %d %u\\n", before, expected, swapped, taken, half);
        __atomic_store_n(&atomics_count, __atomic_xor_fetch(&atomics_count, $b, __ATOMIC_RELAXED), __ATOMIC_SEQ_CST);
    }
}
""",
    "callbacks": """\
typedef $type callbacks_step($type, void *);
struct callbacks_entry { const char *name; callbacks_step *step; void *with; };
static $type callbacks_scale = $a;
static $type callbacks_add($type n, void *with) { return n + *($type *)with; }
static $type callbacks_turn($type n, void *with) { (void)with; return n << 7 | n >> 9; }
$type callbacks_count($type n, void *with) { int *calls = with; return n ^ (unsigned)++*calls; }
static int callbacks_calls;
static const struct callbacks_entry callbacks_table[] = {
    { "add", callbacks_add, &callbacks_scale }, { "turn", callbacks_turn, 0 },
    { "count", &callbacks_count, &callbacks_calls }, { "again", callbacks_add, &callbacks_scale },
};
static $type callbacks_run(const struct callbacks_entry *first, const struct callbacks_entry *end, $type n) {
    for (; first < end; first++) n = first->step(n, first->with);
    return n;
}
static void callbacks(void) {
    callbacks_step *volatile chosen = callbacks_turn;
    for (int i = 0; i < $few; i++) {
        callbacks_scale += i;
        const struct callbacks_entry *last = callbacks_table + (i & 3);
        printf("%s $form\\n", last->name, callbacks_run(callbacks_table, last + 1, chosen($b + i, 0)));
    }
    printf("%d\\n", callbacks_calls);
}
""",
    "buffers": """\
static unsigned char buffers_sieve[128];
struct buffers_bytes { unsigned char *data; size_t size, room; };
static void buffers_append(struct buffers_bytes *to, const void *from, size_t n) {
    if (to->room - to->size < n) {
        to->room = to->room * 2 + n;
        to->data = realloc(to->data, to->room);
        if (!to->data) abort();
    }
    memcpy(to->data + to->size, from, n);
    to->size += n;
}
static unsigned buffers_fill(unsigned n) {
    unsigned char bytes[n + 1], *at = __builtin_alloca(n + 16);
    for (unsigned i = 0; i <= n; i++) bytes[i] = (unsigned char)(i * $a);
    memcpy(at, bytes, n + 1);
    return at[n] + bytes[n / 2];
}
static void buffers(void) {
    struct buffers_bytes bytes = { 0, 0, 0 };
    unsigned count = 0;
    for (unsigned i = 2; i < 1024; i++) {
        if (buffers_sieve[i / 8] >> (i & 7) & 1) continue;
        count++;
        for (unsigned k = i * i; k < 1024; k += i) buffers_sieve[k >> 3] |= 1u << (k & 7);
        if (i % $few == 1) buffers_append(&bytes, &i, sizeof i - (i & 1));
    }
    uint32_t crc = ~0u;
    for (size_t i = 0; i < bytes.size; i++) {
        crc ^= bytes.data[i];
        for (int k = 0; k < 8; k++) crc = crc & 1 ? crc >> 1 ^ 0xedb88320u : crc >> 1;
    }
    printf("%u %zu %x %u\\n", count, bytes.size, ~crc, buffers_fill($few * 11));
    free(bytes.data);
}
""",
    "vectors": """\
typedef int vectors_ints __attribute__((vector_size(16)));
typedef short vectors_shorts __attribute__((vector_size(16)));
typedef float vectors_floats __attribute__((vector_size(16)));
typedef double vectors_doubles __attribute__((vector_size(16)));
vectors_ints vectors_mixed(vectors_ints a, vectors_ints b) { return ((a + b) ^ (a << 3)) - (vectors_ints)(a > b); }
static vectors_shorts vectors_product(vectors_shorts a, vectors_shorts b) {
    return (a & b) * 3 + (a >> 2) - __builtin_shuffle(b, (vectors_shorts){ 7, 6, 5, 4, 3, 2, 1, 0 });
}
static void vectors(void) {
    vectors_ints a = { 1, $few, 3, -4 }, b = { $few, 6, 7, 8 };
    vectors_shorts s = { 1, 2, 3, 4, -5, 6, -7, $few }, t = { 9, 8, 7, 6, 5, 4, 3, 2 };
    vectors_floats f = { 1.5f, $few, -2, 0.25f };
    vectors_doubles d = { 0.1, $a };
    for (int i = 0; i < 3; i++) {
        a = vectors_mixed(a, b) & 0xffff;
        s = vectors_product(s, t) & 63;
        f = f * f - (vectors_floats){ 1, 2, 3, (float)i };
        d = d / 1.7 + d;
    }
    printf("%d %d %d %d %d %d %.9g %.9g %.17g %.17g\\n", a[0], a[1], a[2], a[3], s[0], s[7], f[0], f[3], d[0], d[1]);
}
""",
    "symbols": """\
__attribute__((common)) int symbols_common;
__attribute__((common)) char symbols_space[40];
__attribute__((weak)) int symbols_weak = $few;
extern int symbols_missing(void) __attribute__((weak));
int symbols_data[4] = { 1, $few, 3, 4 };
extern int symbols_other[4] __attribute__((alias("symbols_data")));
__attribute__((aligned(64))) static unsigned char symbols_aligned[5] = { 1, 2, 3 };
__attribute__((section(".data.symbols"))) static short symbols_apart = $a;
__attribute__((constructor)) static void symbols_begin(void) { symbols_common += $b; }
__attribute__((destructor)) static void symbols_end(void) { printf("end %d\\n", symbols_common); }
__attribute__((weak, visibility("protected"))) int symbols_said(int n) { return n * symbols_weak; }
static int symbols_hidden(int n) { return symbols_said(n) + 1; }
extern int symbols_named(int n) __attribute__((alias("symbols_hidden")));
__attribute__((cold, noinline)) static void symbols_rare(int n) { printf("rare %d\\n", n); symbols_space[n & 31]++; }
static _Thread_local struct { int a; long b[3]; } symbols_own = { $few, { 1, 2 } };
static void symbols(void) {
    for (int i = 0; i < $few; i++) {
        symbols_other[i & 3] += symbols_named(i);
        symbols_own.b[i % 3] += symbols_data[(i + 1) & 3] + symbols_apart;
        if (__builtin_expect(symbols_own.b[i % 3] % 5 == 0, 0)) symbols_rare(i);
        printf("%d %ld %d\\n", symbols_data[i & 3], symbols_own.b[i % 3], symbols_missing ? symbols_missing() : 0);
    }
    printf("%d %d %d\\n", symbols_common, symbols_space[3], (int)((uintptr_t)symbols_aligned & 63) + symbols_aligned[2]);
}
""",
    "overflows": """\
static int overflows_checked(int a, int b, long *to) {
    int sum;
    long product;
    unsigned char small;
    if (__builtin_add_overflow(a, b, &sum)) return 1;
    if (__builtin_mul_overflow((long)sum * $a, b * 2147483648L, &product)) return 2;
    if (__builtin_sub_overflow(a, $few, &small)) { *to = product; return 3; }
    *to = small;
    return 4;
}
static int overflows_ordered(double a, double b) {
    return __builtin_isless(a, b) + 2 * (a == b) + 4 * __builtin_isunordered(a, b) + 8 * (a != a) + 16 * !(a >= b) + 32 * (__builtin_isinf_sign(b) != 0);
}
static void overflows(void) {
    static const int numbers[] = { 0, 1, -1, $few, $a, 2147483647, -2147483647 - 1, -$c };
    static const double floating[] = { 0.0, -0.0, 1e308, -1.5, __builtin_inf(), __builtin_nan(""), $b };
    for (int i = 0; i < 8; i++)
        for (int j = 0; j < 8; j += 3) {
            long found = -1;
            int how = overflows_checked(numbers[i], numbers[j], &found);
            printf("%d %ld %d\\n", how, found, overflows_ordered(floating[i % 7] * $few, floating[(i + j) % 7]));
        }
}
""",
    "copied": """\
static void copied_unrolled(uint16_t *to, const uint16_t *from, int count) {
    int rounds = (count + 7) / 8;
    switch (count % 8) {
    case 0: do { *to++ = *from++;
    case 7: *to++ = (uint16_t)(*from++ + 1);
    case 6: *to++ = *from++;
    case 5: *to++ = (uint16_t)(*from++ * $few);
    case 4: *to++ = *from++;
    case 3: *to++ = *from++ ^ $a;
    case 2: *to++ = *from++;
    case 1: *to++ = *from++;
    } while (--rounds > 0);
    }
}
struct copied_block { uint8_t bytes[300]; };
static void copied(void) {
    uint16_t from[40], to[40] = { 0 };
    struct copied_block one = { { 1, $few, [200] = 7 } }, other;
    for (int i = 0; i < 40; i++) from[i] = (uint16_t)(i * $b);
    copied_unrolled(to, from, 20 + $few);
    other = one;
    other.bytes[299] = (uint8_t)memcmp(&one, &other, sizeof one);
    for (int i = 0; i < 40; i++) tell(to[i]);
    for (unsigned i = 0; i < sizeof other; i++) tell(other.bytes[i] + i);
    printf("%u %u %u %lx\\n", to[3], to[19], other.bytes[200], told);
}
""",
}


def piece(name: str, rng: random.Random) -> str:
    """The text of a piece, with numbers and a type of its own."""
    kind, form = rng.choice([("uint32_t", "%u"), ("uint64_t", "%lu")])
    odd = {letter: rng.getrandbits(16) | 1 for letter in "abc"}
    return Template(PIECES[name]).substitute(odd, few=rng.randrange(3, 10), type=kind, form=form)
