/* Each operation of floating point of 32 and of 64 bits, on pairs of bits from the input. */
#include <math.h>
#include "wavescalar.h"

typedef unsigned long word;

#define FORMAT(k, number, type, root, rest, down, up, to_even, away, to_zero, size, signed_as)                    \
  static number bits##k(type x) {                                                                                 \
    number found;                                                                                                 \
    __builtin_memcpy(&found, &x, sizeof x);                                                                       \
    return found;                                                                                                 \
  }                                                                                                               \
  static type of##k(number x) {                                                                                   \
    type found;                                                                                                   \
    __builtin_memcpy(&found, &x, sizeof x);                                                                       \
    return found;                                                                                                 \
  }                                                                                                               \
  static void pair##k(number a, number b) {                                                                       \
    type x = of##k(a), y = of##k(b);                                                                              \
    ws_print(bits##k(x + y)), ws_print(bits##k(x - y)), ws_print(bits##k(x * y)), ws_print(bits##k(x / y));       \
    ws_print((word)((x < y) | (x <= y) << 1 | (x > y) << 2 | (x >= y) << 3 | (x == y) << 4 | (x != y) << 5));      \
    ws_print((word)(!(x < y) | !(x <= y) << 1 | !(x > y) << 2 | !(x >= y) << 3 | isless(x, y) << 4 |              \
                    islessgreater(x, y) << 5 | isunordered(x, y) << 6 | !islessgreater(x, y) << 7));              \
    ws_print(bits##k(root(size(x)))), ws_print(bits##k(rest(x, y)));                                              \
    ws_print(bits##k(down(x))), ws_print(bits##k(up(x))), ws_print(bits##k(to_even(x)));                          \
    ws_print(bits##k(away(x))), ws_print(bits##k(to_zero(x)));                                                    \
    ws_print(bits##k(-x)), ws_print(bits##k(signed_as(x, y)));                                                    \
    if (x > -0x1p31f && x < 0x1p31f) ws_print((word)(int)x), ws_print((word)(long)x), ws_print((word)(long)(short)(x / 65536)); \
    if (x > -1 && x < 0x1p64f) ws_print((word)x);                                                                 \
    ws_print(bits##k((type)a)), ws_print(bits##k((type)(long)b)), ws_print(bits##k((type)(signed char)b));        \
  }

FORMAT(32, unsigned, float, sqrtf, fmodf, floorf, ceilf, rintf, roundf, truncf, fabsf, copysignf)
FORMAT(64, word, double, sqrt, fmod, floor, ceil, rint, round, trunc, fabs, copysign)

int main(void) {
  for (word count = ws_read(); count; count--) {
    word a = ws_read(), b = ws_read();
    pair64(a, b), pair32((unsigned)(a >> 32), (unsigned)(b >> 32));
    ws_print(bits32((float)of64(a))), ws_print(bits64((double)of32((unsigned)(b >> 32))));
  }
}
