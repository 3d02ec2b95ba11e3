/* The Fourier transform of 8 numbers and back, in `float` (the kind of MiBench); the roots of unity come of
   square roots. Reads a seed, and how often. Prints the greatest error in units of 2^-20. */
#include <math.h>
#include <stdint.h>
#include "wavescalar.h"

#define BITS 3
#define N (1 << BITS)

static float re[N], im[N], from[N], root_re[BITS], root_im[BITS];

static void transform(float sign) {
  for (unsigned k = 0, turned = 0; k < N; k++) {
    if (k < turned) {
      float held = re[k];
      re[k] = re[turned], re[turned] = held;
      held = im[k], im[k] = im[turned], im[turned] = held;
    }
    unsigned bit = N >> 1;
    for (; turned & bit; bit >>= 1) turned ^= bit;
    turned |= bit;
  }
  for (int level = 0; level < BITS; level++) {
    int half = 1 << level;
    float c = 1, s = 0, by_c = root_re[level], by_s = sign * root_im[level];
    for (int j = 0; j < half; j++) {
      for (int k = j; k < N; k += 2 * half) {
        float x = c * re[k + half] - s * im[k + half], y = c * im[k + half] + s * re[k + half];
        re[k + half] = re[k] - x, im[k + half] = im[k] - y;
        re[k] += x, im[k] += y;
      }
      float next = c * by_c - s * by_s;
      s = c * by_s + s * by_c, c = next;
    }
  }
}

int main(void) {
  uint32_t seed = (uint32_t)ws_read();
  float worst = 0;
  root_re[0] = -1, root_im[0] = 0;
  for (int k = 1; k < BITS; k++) {
    root_re[k] = sqrtf((1 + root_re[k - 1]) / 2), root_im[k] = sqrtf((1 - root_re[k - 1]) / 2);
  }
  for (unsigned long rounds = ws_read(); rounds; rounds--) {
    for (int k = 0; k < N; k++) {
      seed = seed * 1103515245u + 12345u;
      re[k] = from[k] = (float)(seed >> 20), im[k] = 0;
    }
    transform(1), transform(-1);
    for (int k = 0; k < N; k++) worst = fmaxf(worst, fabsf(re[k] / N - from[k]));
  }
  ws_print((unsigned long)(worst * 0x1p20f));
  return 0;
}
