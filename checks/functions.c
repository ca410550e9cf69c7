/* Functions without branches, one after the other for checks/functions.sh, and a main that prints what they answer. */
#include <emmintrin.h>
#include <stdint.h>
#include <stdio.h>

struct text { char bytes[24]; };
extern int limit;
extern __thread long count;
int report(int value);

unsigned mixed(unsigned a, unsigned b);
long quotient(long a, long b);
uint64_t high_product(uint64_t a, uint64_t b);
double polynomial(double x);
int converted(float a, long b);
int ordered(int a, int b);
unsigned bits(unsigned a, unsigned char n);
void copied(struct text *to, const struct text *from, char first);
const char *name_of(unsigned n);
__m128i sums(__m128i a, __m128i b);
long counted(long by);
int limited(int a);
int called(int a);

#ifndef ONLY_MAIN
static const char *const names[4] = { "zero", "one", "two", "three" };

unsigned mixed(unsigned a, unsigned b) { return (a * 9 + (b << 13 | b >> 19)) ^ (a - b) * 0x9e3779b1u; }
long quotient(long a, long b) { return a / b * 1000 + a % b; }
uint64_t high_product(uint64_t a, uint64_t b) { return (uint64_t)((unsigned __int128)a * b >> 64); }
double polynomial(double x) { return ((0.25 * x - 1.5) * x + 3.0) / (x * x + 1.0); }
int converted(float a, long b) { return (int)((double)a * (float)b) - (int)b; }
int ordered(int a, int b) { return (a < b ? a : b) * 2 + (a == b) + 4 * (unsigned char)a; }
unsigned bits(unsigned a, unsigned char n) { return __builtin_bswap32(a) + (unsigned)__builtin_clz(a | 1) + (a << (n & 31)) + (a >> n % 32 & 1); }
void copied(struct text *to, const struct text *from, char first) { *to = *from; to->bytes[0] = first; to->bytes[23] = (char)(from->bytes[1] + 1); }
const char *name_of(unsigned n) { return names[n & 3]; }
__m128i sums(__m128i a, __m128i b) { return _mm_add_epi32(_mm_shuffle_epi32(a, 0x1b), _mm_xor_si128(_mm_mul_epu32(a, b), _mm_slli_epi16(b, 3))); }
long counted(long by) { return count += by; }
int limited(int a) { return (a < limit ? a : limit) + (int)(count & 3); }
int called(int a) { return report(a + 1) * 2 + report(3); }
#endif

#ifndef NO_MAIN
int limit = 40;
__thread long count = 5;

int report(int value) {
    printf("report %d\n", value);
    return value * 7;
}

int main(void) {
    for (int n = 1; n < 20; n++) {
        struct text one = { "abcdefghijklmnopqrstuvw" }, other;
        __m128i sum = sums(_mm_set_epi32(n, 2 * n, 3, -n), _mm_set1_epi32(n * 0x1234567));
        copied(&other, &one, (char)('A' + n));
        printf("%u %ld %lu %.17g %d %d %u %.24s %s %d %d %ld %d %d\n", mixed(n * 77777u, n), quotient(1000003L * n, -3 - n), high_product(~0ull / n, n << 20),
               polynomial(n / 3.0), converted(n * 1.5f, 1000 - n), ordered(n, 10), bits(n * 0x10203u, n), other.bytes, name_of(n),
               _mm_cvtsi128_si32(sum), _mm_cvtsi128_si32(_mm_srli_si128(sum, 12)), counted(n), limited(n * 5), called(n));
    }
}
#endif
