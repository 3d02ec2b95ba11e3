/* Compares the floating point of library/float.c, compiled natively, with the processor's: all pairs of the edge cases, and
   so many random pairs as the first argument says, from the seed that the second one says. Prints the count, or what differs.

   Results are compared bit by bit. Where both operands are NaNs a compiler may exchange them: then either may go on. */
#include <math.h>
#include <stdint.h>
#include <stdio.h>
#include <stdlib.h>
#include <string.h>

#include "float.c"

static unsigned long count, wrong, state;

static uint64_t random_bits(void) {
  state ^= state << 13, state ^= state >> 7, state ^= state << 17;
  return state * 0x2545F4914F6CDD1Dul;
}

static void same(const char *what, uint64_t a, uint64_t b, uint64_t mine, uint64_t other, int may_be) {
  count++;
  if (mine != other && !may_be && wrong++ < 20)
    printf("%s of %016lx, %016lx: %016lx in place of %016lx\n", what, a, b, mine, other);
}

#define FORMAT(k, f, type, root, down, up, nearest, away, zero, least, greatest, rest)                             \
  static uint##k##_t raw##k(type x) {                                                                              \
    uint##k##_t r;                                                                                                 \
    memcpy(&r, &x, sizeof r);                                                                                      \
    return r;                                                                                                      \
  }                                                                                                                \
  static void pair##k(uint##k##_t a, uint##k##_t b) {                                                              \
    volatile type x, y;                                                                                            \
    memcpy((void *)&x, &a, sizeof a), memcpy((void *)&y, &b, sizeof b);                                            \
    int two = x != x && y != y;                                                                                    \
    same("add" #k, a, b, wscc_f##k##_add(a, b), raw##k(x + y), two);                                               \
    same("sub" #k, a, b, wscc_f##k##_sub(a, b), raw##k(x - y), two);                                               \
    same("mul" #k, a, b, wscc_f##k##_mul(a, b), raw##k(x * y), two);                                               \
    same("div" #k, a, b, wscc_f##k##_div(a, b), raw##k(x / y), two);                                               \
    same("rem" #k, a, b, wscc_f##k##_rem(a, b), raw##k(rest(x, y)), two);                                          \
    same("lt" #k, a, b, wscc_f##k##_lt(a, b), x < y, 0);                                                           \
    same("le" #k, a, b, wscc_f##k##_le(a, b), x <= y, 0);                                                          \
    same("eq" #k, a, b, wscc_f##k##_eq(a, b), x == y, 0);                                                          \
    same("ord" #k, a, b, wscc_f##k##_ord(a, b), x == x && y == y, 0);                                              \
    int unlike = two || (!size_of(a, f) && !size_of(b, f));                                                        \
    if (x == x || y == y) same("least" #k, a, b, wscc_f##k##_minnum(a, b), raw##k(least(x, y)), unlike);           \
    if (x == x || y == y) same("greatest" #k, a, b, wscc_f##k##_maxnum(a, b), raw##k(greatest(x, y)), unlike);     \
    same("sqrt" #k, a, 0, wscc_f##k##_sqrt(a), raw##k(root(x)), 0);                                                \
    same("floor" #k, a, 0, wscc_f##k##_floor(a), raw##k(down(x)), 0);                                              \
    same("ceil" #k, a, 0, wscc_f##k##_ceil(a), raw##k(up(x)), 0);                                                  \
    same("rint" #k, a, 0, wscc_f##k##_rint(a), raw##k(nearest(x)), 0);                                             \
    same("round" #k, a, 0, wscc_f##k##_round(a), raw##k(away(x)), 0);                                              \
    same("trunc" #k, a, 0, wscc_f##k##_trunc(a), raw##k(zero(x)), 0);                                              \
    if (x >= (type)-0x1p63 && x < (type)0x1p63) same("long" #k, a, 0, wscc_f##k##_number(a), (uint64_t)(long)x, 0); \
    if (x > -1 && x < (type)0x1p64) same("unsigned long" #k, a, 0, wscc_f##k##_number(a), (uint64_t)x, 0);         \
  }                                                                                                                \
  static void number##k(uint64_t n) {                                                                              \
    volatile uint64_t given = n;                                                                                   \
    same("of unsigned" #k, n, 0, wscc_f##k##_unsigned(n), raw##k((type)given), 0);                                 \
    same("of signed" #k, n, 0, wscc_f##k##_signed((int64_t)n), raw##k((type)(int64_t)given), 0);                   \
  }

FORMAT(32, SHORT, float, sqrtf, floorf, ceilf, rintf, roundf, truncf, fminf, fmaxf, fmodf)
FORMAT(64, LONG, double, sqrt, floor, ceil, rint, round, trunc, fmin, fmax, fmod)

static void one(uint64_t a) {
  volatile double d;
  volatile float s;
  uint32_t low = (uint32_t)a;
  memcpy((void *)&d, &a, sizeof a), memcpy((void *)&s, &low, sizeof low);
  same("to float", a, 0, wscc_f32_narrowed(a), raw32((float)d), 0);
  same("to double", low, 0, wscc_f64_widened(low), raw64((double)s), 0);
  number32(a), number64(a);
}

/* A number of a format: its exponent is near that of 1, or anything; its fraction has some bits, or all. */
static uint64_t drawn(int f) {
  uint64_t x = random_bits() & (2 * sign_of(f) - 1), way = random_bits();
  if (way & 1) x = (x & ~infinity(f)) | (bits)(bias_of(f) - 40 + (int)(way >> 32) % 80) << f;
  if (way & 2) x &= ~(uint64_t)0 << (way >> 8) % (unsigned)f;
  if ((way & 60) == 0) x &= ~infinity(f);
  return x;
}

int main(int n, char **arguments) {
  static const uint64_t whole[] = {0, 1, 2, 3, 5, 10, 1u << 24, (1u << 24) + 1, (1u << 24) + 3, 1ul << 53, (1ul << 53) + 1,
                                   (1ul << 53) + 3, (1ul << 62) + 1, 1ul << 63, (1ul << 63) + 1025, (1ul << 63) - 1, ~0ul,
                                   ~0ul << 10, ~0ul << 11, 0xFFFFFF8000000000ul, 0xFFFFFF7FFFFFFFFFul};
  uint64_t edges[2][96];
  int many = 0;
  for (int side = 0; side < 2; side++) {
    static const int near[] = {-1074, -1023, -1022, -150, -149, -127, -126, -54, -53, -25, -24, -2, -1, 0, 1, 2, 22, 23, 24, 31,
                               51, 52, 53, 62, 63, 64, 127, 1023};
    int f = side ? LONG : SHORT;
    many = 0;
    for (unsigned k = 0; k < sizeof near / sizeof *near; k++) {
      long e = near[k] + bias_of(f);
      if (e < 0 || e > most_of(f)) e = k & 1 ? most_of(f) : 0;
      edges[side][many++] = (bits)e << f, edges[side][many++] = ((bits)e << f) + 1;
      edges[side][many++] = ((bits)e << f) | (((bits)1 << f) - 1) >> (k % 3);
    }
    edges[side][many++] = infinity(f), edges[side][many++] = undefined(f), edges[side][many++] = infinity(f) + 5;
    edges[side][many++] = (bits)(bias_of(f) - 1) << f | (bits)1 << (f - 1);
  }
  for (int a = 0; a < 2 * many; a++)
    for (int b = 0; b < 2 * many; b++) {
      pair32((uint32_t)(edges[0][a % many] ^ (a < many ? 0 : sign_of(SHORT))),
             (uint32_t)(edges[0][b % many] ^ (b < many ? 0 : sign_of(SHORT))));
      pair64(edges[1][a % many] ^ (a < many ? 0 : sign_of(LONG)), edges[1][b % many] ^ (b < many ? 0 : sign_of(LONG)));
    }
  for (int k = 0; k < 2 * many; k++) one(edges[k & 1][k / 2]);
  for (unsigned k = 0; k < sizeof whole / sizeof *whole; k++) one(whole[k]), one(0 - whole[k]);
  state = n > 2 ? strtoul(arguments[2], NULL, 0) | 1 : 1;
  for (unsigned long k = n > 1 ? strtoul(arguments[1], NULL, 0) : 0; k; k--) {
    pair32((uint32_t)drawn(SHORT), (uint32_t)drawn(SHORT)), pair64(drawn(LONG), drawn(LONG));
    uint64_t near = drawn(LONG);
    pair64(near, near ^ (random_bits() & 7) ^ (random_bits() & sign_of(LONG)));
    one(drawn(LONG)), one(drawn(SHORT)), one(random_bits() >> (random_bits() & 63));
  }
  printf("%lu compared, %lu different\n", count, wrong);
  return wrong != 0;
}
