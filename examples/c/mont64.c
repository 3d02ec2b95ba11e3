/* Powers modulo odd numbers of 64 bits, by Montgomery's products (the kind of Embench). Reads a seed, and how
   many. Prints a hash of the powers, and how many differ from those by division. */
#include <stdint.h>
#include "wavescalar.h"

static uint64_t high_of(uint64_t a, uint64_t b) { return (uint64_t)((unsigned __int128)a * b >> 64); }

static uint64_t inverse_of(uint64_t m) {
  uint64_t x = m;
  for (int k = 0; k < 5; k++) x *= 2 - m * x;
  return x;
}
static uint64_t product(uint64_t a, uint64_t b, uint64_t m, uint64_t inverse) {
  uint64_t up = high_of(a, b), back = high_of(a * b * inverse, m);
  return up >= back ? up - back : up - back + m;
}
static uint64_t twice(uint64_t x, uint64_t m) { return x >= m - x ? x - (m - x) : x + x; }

static uint64_t power(uint64_t x, unsigned n, uint64_t m) {
  uint64_t inverse = inverse_of(m), one = 1 % m, y = x % m;
  for (int k = 0; k < 64; k++) one = twice(one, m), y = twice(y, m);
  for (; n; n >>= 1, y = product(y, y, m, inverse))
    if (n & 1) one = product(one, y, m, inverse);
  return product(one, 1, m, inverse);
}
static uint64_t slow_power(uint64_t x, unsigned n, uint64_t m) {
  uint64_t y = 1 % m;
  for (x %= m; n; n >>= 1, x = x * x % m)
    if (n & 1) y = y * x % m;
  return y;
}

int main(void) {
  uint64_t seed = ws_read(), hash = 0, wrong = 0;
  for (unsigned long count = ws_read(); count; count--) {
    seed = seed * 6364136223846793005u + 1442695040888963407u;
    uint64_t m = seed | 1, x = seed * seed >> 3, small = m >> 33 | 1;
    hash = hash * 31 + power(x, (unsigned)(seed >> 40) & 0xFFF, m);
    wrong += power(x, (unsigned)(seed >> 52), small) != slow_power(x, (unsigned)(seed >> 52), small);
  }
  ws_print(hash), ws_print(wrong);
  return 0;
}
