/* Floating point by integers: numbers of 32 and of 64 bits as IEEE 754 has them, rounded to nearest, ties to even, and of
   libm what is exact by its definition. Calls of these functions stand for the operations (floats.py); they are compiled
   with a program that has some.

   A format is known by the bits of its fraction, 23 or 52. Significands have their first bit at FIRST, and what is lost
   below bit 0 is kept there as a bit that is set. An operation that isn't defined gives the NaN of x86-64; a NaN goes on,
   the first operand's before the second's, as a quiet one. */
#include <stdint.h>

typedef uint64_t bits;
enum { SHORT = 23, LONG = 52, FIRST = 62 };
#define INLINE static inline __attribute__((always_inline))

INLINE long most_of(int f) { return f == LONG ? 2047 : 255; } /* the exponent of infinity and of NaNs */
INLINE long bias_of(int f) { return most_of(f) / 2; }
INLINE bits sign_of(int f) { return f == LONG ? (bits)1 << 63 : (bits)1 << 31; }
INLINE bits size_of(bits x, int f) { return x & (sign_of(f) - 1); }
INLINE bits infinity(int f) { return (bits)most_of(f) << f; }
INLINE int is_nan(bits x, int f) { return size_of(x, f) > infinity(f); }
INLINE bits quiet(bits x, int f) { return x | (bits)1 << (f - 1); }
INLINE bits undefined(int f) { return sign_of(f) | infinity(f) | (bits)1 << (f - 1); }
INLINE bits nan_of(bits a, bits b, int f) { return quiet(is_nan(a, f) ? a : b, f); }
INLINE long exponent_of(bits x, int f) { return (long)(size_of(x, f) >> f); }
INLINE bits fraction_of(bits x, int f) { return x & (((bits)1 << f) - 1); }

/* Shifted to the right; a bit that is set stands for what went. m is less than 2^63. */
INLINE bits jammed(bits m, bits by) {
  by = by > 63 ? 63 : by;
  bits moved = m >> by;
  return moved | (moved << by != m);
}

/* m 2^(e - bias - FIRST), where e is 1 or more. Where it is 1, m may be less than 2^FIRST. */
INLINE bits packed(bits sign, long e, bits m, int f) {
  bits half = (bits)1 << (FIRST - f - 1), low = m & (2 * half - 1), found = m >> (FIRST - f);
  found += low > half - (found & 1);
  found += (bits)(e - 1) << f;
  return sign | (found > infinity(f) ? infinity(f) : found);
}
/* The same for any e. */
INLINE bits rounded(bits sign, long e, bits m, int f) {
  if (e < 1) m = jammed(m, (bits)(1 - e)), e = 1;
  return packed(sign, e, m, f);
}

/* The exponent of a number that is neither 0 nor infinite, and its significand with the first bit at f. */
INLINE long parted(bits x, int f, bits *m) {
  long e = exponent_of(x, f);
  *m = fraction_of(x, f);
  if (e) {
    *m |= (bits)1 << f;
    return e;
  }
  int by = __builtin_clzl(*m) - (63 - f);
  *m <<= by;
  return 1 - by;
}

/* Paths without branches take fewer firings: what isn't usual is one branch. */
INLINE bits added(bits a, bits b, int f) {
  int is_less = size_of(a, f) < size_of(b, f);
  bits one = is_less ? b : a, other = is_less ? a : b, differ = (a ^ b) & sign_of(f), first = (bits)1 << (FIRST - 1);
  long e = exponent_of(one, f), less = exponent_of(other, f), up = FIRST - 1 - f, by;
  int is_none = e == most_of(f);
  bits m = fraction_of(one, f) << up | (e ? first : 0), n = fraction_of(other, f) << up | (less ? first : 0);
  e += !e, less += !less;
  n = jammed(n, (bits)(e - less));
  m = differ ? m - n : m + n;
  by = 1 - (long)(m >> FIRST);
  if (m < first) {
    by = __builtin_clzl(m | 1) - (63 - FIRST);
    if (by > e) by = e;
  }
  bits found = packed(m || !differ ? one & sign_of(f) : 0, m ? e + 1 - by : 1, m << by, f);
  if (is_none) found = is_nan(one, f) ? nan_of(a, b, f) : differ && less == e ? undefined(f) : one;
  return found;
}

/* Whether a number is 0, small, infinite or none. */
INLINE int is_unusual(long e, int f) { return (bits)e - 1 >= (bits)most_of(f) - 1; }

INLINE bits multiplied(bits a, bits b, int f) {
  bits sign = (a ^ b) & sign_of(f), m = fraction_of(a, f) | (bits)1 << f, n = fraction_of(b, f) | (bits)1 << f;
  long e = exponent_of(a, f), other = exponent_of(b, f);
  if (is_unusual(e, f) || is_unusual(other, f)) {
    bits one = size_of(a, f), two = size_of(b, f);
    if (is_nan(a, f) || is_nan(b, f)) return nan_of(a, b, f);
    if (one == infinity(f) || two == infinity(f)) return one && two ? sign | infinity(f) : undefined(f);
    if (!one || !two) return sign;
    e = parted(one, f, &m), other = parted(two, f, &n);
  }
  e += other - bias_of(f);
  if (f == SHORT) m = m * n << (FIRST - 1 - 2 * SHORT);
  else {
    unsigned __int128 product = (unsigned __int128)(m << (FIRST - LONG)) * (n << (63 - LONG));
    m = (bits)(product >> 64) | ((bits)product != 0);
  }
  bits is_long = m >> FIRST;
  return rounded(sign, e + (long)is_long, m << (1 - is_long), f);
}

INLINE bits divided(bits a, bits b, int f) {
  bits sign = (a ^ b) & sign_of(f), m = fraction_of(a, f) | (bits)1 << f, n = fraction_of(b, f) | (bits)1 << f;
  long e = exponent_of(a, f), other = exponent_of(b, f);
  if (is_unusual(e, f) || is_unusual(other, f)) {
    bits one = size_of(a, f), two = size_of(b, f);
    if (is_nan(a, f) || is_nan(b, f)) return nan_of(a, b, f);
    if (one == infinity(f)) return two == one ? undefined(f) : sign | one;
    if (two == infinity(f)) return sign;
    if (!two) return one ? sign | infinity(f) : undefined(f);
    if (!one) return sign;
    e = parted(one, f, &m), other = parted(two, f, &n);
  }
  bits is_less = m < n;
  m <<= is_less, e += bias_of(f) - other - (long)is_less;
  bits quotient = 1, rest = m - n;
  for (int steps = f == LONG ? 5 : 1, by = f == LONG ? 11 : 39; steps; steps--) {
    bits digit = (rest << by) / n;
    quotient = quotient << by | digit, rest = (rest << by) - digit * n;
  }
  return rounded(sign, e, quotient << (f == LONG ? FIRST - 55 : FIRST - 39) | (rest != 0), f);
}

INLINE bits rooted(bits x, int f) {
  bits m, root = 0, twice = 0;
  if (is_nan(x, f)) return quiet(x, f);
  if (!size_of(x, f) || x == infinity(f)) return x;
  if (x & sign_of(f)) return undefined(f);
  long e = parted(x, f, &m) - bias_of(f);
  if (e & 1) m <<= 1;
  m <<= 1;
  for (bits bit = (bits)1 << (f + 1); bit; bit >>= 1, m <<= 1) {
    bits next = twice + bit;
    if (next <= m) twice = next + bit, m -= next, root += bit;
  }
  return rounded(0, (e >> 1) + bias_of(f), root << (FIRST - 1 - f) | (m != 0), f);
}

/* The remainder of a division towards 0, exact, with the sign of a. */
INLINE bits remainder_of(bits a, bits b, int f) {
  bits sign = a & sign_of(f), one = size_of(a, f), other = size_of(b, f), m, n;
  if (is_nan(a, f) || is_nan(b, f)) return nan_of(a, b, f);
  if (one == infinity(f) || !other) return undefined(f);
  if (one < other) return a;
  long left = parted(one, f, &m), e = parted(other, f, &n);
  m %= n;
  for (left -= e; left > 0 && m;) {
    long by = left < 63 - f ? left : 63 - f;
    m = (m << by) % n, left -= by;
  }
  if (!m) return sign;
  int by = __builtin_clzl(m) - (63 - FIRST);
  return rounded(sign, e + FIRST - f - by, m << by, f);
}

/* Comparisons: numbers in the order of integers. */
INLINE int64_t order_of(bits x, int f) { return x & sign_of(f) ? -(int64_t)size_of(x, f) : (int64_t)x; }
INLINE int are_ordered(bits a, bits b, int f) { return !is_nan(a, f) && !is_nan(b, f); }

/* Integers. */
INLINE bits from_number(bits size, bits sign, int f) {
  if (!size) return 0;
  long zeros = __builtin_clzl(size), e = bias_of(f) + 63 - zeros;
  return rounded(sign, e, zeros ? size << (zeros - 1) : size >> 1 | (size & 1), f);
}
INLINE bits to_number(bits x, int f) {
  long e = exponent_of(x, f) - bias_of(f);
  if (e < 0) return 0;
  if (e > 63) return (bits)1 << 63;
  bits m = fraction_of(x, f) | (bits)1 << f, size = e < f ? m >> (f - e) : m << (e - f);
  return x & sign_of(f) ? 0 - size : size;
}

/* To a whole number. way: 0 towards 0, 1 down, 2 up, 3 to the nearest, ties to even, 4 to the nearest, ties away. */
INLINE bits whole(bits x, int f, int way) {
  long e = exponent_of(x, f) - bias_of(f);
  int is_below = (x & sign_of(f)) != 0;
  if (e >= f) return is_nan(x, f) ? quiet(x, f) : x;
  bits one = (bits)bias_of(f) << f, sign = x & sign_of(f), size = size_of(x, f);
  if (e < 0) {
    bits half = (bits)(bias_of(f) - 1) << f;
    int is_up = way == 1 ? is_below && size : way == 2 ? !is_below && size : way == 3 ? size > half : way == 4 ? size >= half : 0;
    return is_up ? sign | one : sign;
  }
  bits unit = (bits)1 << (f - e), low = size & (unit - 1), half = unit >> 1;
  int is_odd = (size & unit) != 0; /* also of 1, whose unit is the lowest bit of an odd exponent */
  int is_up = way == 1 ? is_below && low : way == 2 ? !is_below && low :
              way == 3 ? low > half || (low == half && is_odd) : way == 4 ? low >= half : 0;
  return sign | (size - low + (is_up ? unit : 0));
}

INLINE bits widened(bits x) {
  bits sign = (x & sign_of(SHORT)) << 32, size = size_of(x, SHORT), m;
  if (size >= infinity(SHORT)) {
    bits found = sign | infinity(LONG) | fraction_of(x, SHORT) << (LONG - SHORT);
    return size == infinity(SHORT) ? found : quiet(found, LONG);
  }
  if (!size) return sign;
  long e = parted(size, SHORT, &m) + bias_of(LONG) - bias_of(SHORT);
  return sign | ((bits)(e - 1) << LONG) + (m << (LONG - SHORT));
}
INLINE bits narrowed(bits x) {
  bits sign = (x & sign_of(LONG)) >> 32, size = size_of(x, LONG);
  if (size > infinity(LONG)) return sign | quiet(infinity(SHORT) | fraction_of(x, LONG) >> (LONG - SHORT), SHORT);
  if (size == infinity(LONG)) return sign | infinity(SHORT);
  bits m = (fraction_of(x, LONG) | (exponent_of(x, LONG) ? (bits)1 << LONG : 0)) << (FIRST - LONG);
  return rounded(sign, exponent_of(x, LONG) - bias_of(LONG) + bias_of(SHORT), m, SHORT);
}

/* The lesser, or the greater, of two; of a quiet NaN and a number the number. */
INLINE bits extreme(bits a, bits b, int f, int is_least) {
  int both = is_nan(a, f) && is_nan(b, f), loud = (is_nan(a, f) && a != quiet(a, f)) || (is_nan(b, f) && b != quiet(b, f));
  if (both || loud) return nan_of(a, b, f);
  if (is_nan(a, f)) return b;
  if (is_nan(b, f)) return a;
  return (order_of(a, f) < order_of(b, f)) == is_least ? a : b;
}

/* Of libm, what compilers call. The program's functions, which take and give numbers of floating point. */
#ifdef __WAVESCALAR__
#define MATH(k, type, one, two)                                                                               \
  type one(type x) {                                                                                          \
    uint##k##_t a;                                                                                            \
    __builtin_memcpy(&a, &x, sizeof a), a = wscc_f##k##_sqrt(a), __builtin_memcpy(&x, &a, sizeof a);          \
    return x;                                                                                                 \
  }                                                                                                           \
  type two(type x, type y) {                                                                                  \
    uint##k##_t a, b;                                                                                         \
    __builtin_memcpy(&a, &x, sizeof a), __builtin_memcpy(&b, &y, sizeof b);                                   \
    a = wscc_f##k##_rem(a, b), __builtin_memcpy(&x, &a, sizeof a);                                            \
    return x;                                                                                                 \
  }
#else
#define MATH(k, type, one, two)
#endif

#define FUNCTIONS(k, f)                                                                                       \
  uint##k##_t wscc_f##k##_add(uint##k##_t a, uint##k##_t b) { return (uint##k##_t)added(a, b, f); }           \
  uint##k##_t wscc_f##k##_sub(uint##k##_t a, uint##k##_t b) {                                                 \
    return (uint##k##_t)added(a, is_nan(b, f) ? b : b ^ sign_of(f), f);                                       \
  }                                                                                                           \
  uint##k##_t wscc_f##k##_mul(uint##k##_t a, uint##k##_t b) { return (uint##k##_t)multiplied(a, b, f); }      \
  uint##k##_t wscc_f##k##_div(uint##k##_t a, uint##k##_t b) { return (uint##k##_t)divided(a, b, f); }         \
  uint##k##_t wscc_f##k##_rem(uint##k##_t a, uint##k##_t b) { return (uint##k##_t)remainder_of(a, b, f); }    \
  uint##k##_t wscc_f##k##_sqrt(uint##k##_t x) { return (uint##k##_t)rooted(x, f); }                           \
  uint##k##_t wscc_f##k##_trunc(uint##k##_t x) { return (uint##k##_t)whole(x, f, 0); }                        \
  uint##k##_t wscc_f##k##_floor(uint##k##_t x) { return (uint##k##_t)whole(x, f, 1); }                        \
  uint##k##_t wscc_f##k##_ceil(uint##k##_t x) { return (uint##k##_t)whole(x, f, 2); }                         \
  uint##k##_t wscc_f##k##_rint(uint##k##_t x) { return (uint##k##_t)whole(x, f, 3); }                         \
  uint##k##_t wscc_f##k##_round(uint##k##_t x) { return (uint##k##_t)whole(x, f, 4); }                        \
  uint##k##_t wscc_f##k##_minnum(uint##k##_t a, uint##k##_t b) { return (uint##k##_t)extreme(a, b, f, 1); }   \
  uint##k##_t wscc_f##k##_maxnum(uint##k##_t a, uint##k##_t b) { return (uint##k##_t)extreme(a, b, f, 0); }   \
  unsigned wscc_f##k##_lt(uint##k##_t a, uint##k##_t b) {                                                     \
    return are_ordered(a, b, f) && order_of(a, f) < order_of(b, f);                                           \
  }                                                                                                           \
  unsigned wscc_f##k##_le(uint##k##_t a, uint##k##_t b) {                                                     \
    return are_ordered(a, b, f) && order_of(a, f) <= order_of(b, f);                                          \
  }                                                                                                           \
  unsigned wscc_f##k##_eq(uint##k##_t a, uint##k##_t b) {                                                     \
    return are_ordered(a, b, f) && order_of(a, f) == order_of(b, f);                                          \
  }                                                                                                           \
  unsigned wscc_f##k##_ord(uint##k##_t a, uint##k##_t b) { return are_ordered(a, b, f); }                     \
  uint##k##_t wscc_f##k##_unsigned(uint64_t n) { return (uint##k##_t)from_number(n, 0, f); }                  \
  uint##k##_t wscc_f##k##_signed(int64_t n) {                                                                 \
    return (uint##k##_t)(n < 0 ? from_number(0 - (bits)n, sign_of(f), f) : from_number((bits)n, 0, f));       \
  }                                                                                                           \
  uint64_t wscc_f##k##_number(uint##k##_t x) { return to_number(x, f); }

FUNCTIONS(32, SHORT)
FUNCTIONS(64, LONG)

uint64_t wscc_f64_widened(uint32_t x) { return widened(x); }
uint32_t wscc_f32_narrowed(uint64_t x) { return (uint32_t)narrowed(x); }

MATH(32, float, sqrtf, fmodf)
MATH(64, double, sqrt, fmod)
