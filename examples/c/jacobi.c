/* Jacobi's steps on a plate of 9 by 9 points, in `double` (the kind of PolyBench). Reads a seed, and how many
   steps. Prints the bits of the sum, and those of a point. */
#include <stdint.h>
#include "wavescalar.h"

#define N 9

static double plates[2][N][N];

static unsigned long bits_of(double x) {
  unsigned long found;
  __builtin_memcpy(&found, &x, sizeof x);
  return found;
}

int main(void) {
  uint32_t seed = (uint32_t)ws_read();
  for (int i = 0; i < N; i++)
    for (int j = 0; j < N; j++) {
      seed = seed * 1664525u + 1013904223u;
      plates[0][i][j] = plates[1][i][j] = (seed >> 8) * 0x1p-24;
    }
  unsigned long steps = ws_read();
  for (unsigned long t = 0; t < steps; t++) {
    double (*from)[N] = plates[t & 1], (*to)[N] = plates[~t & 1];
    for (int i = 1; i < N - 1; i++)
      for (int j = 1; j < N - 1; j++)
        to[i][j] = 0.2 * (from[i][j] + from[i][j - 1] + from[i][j + 1] + from[i + 1][j] + from[i - 1][j]);
  }
  double sum = 0;
  for (int i = 0; i < N; i++)
    for (int j = 0; j < N; j++) sum += plates[steps & 1][i][j];
  ws_print(bits_of(sum)), ws_print(bits_of(plates[steps & 1][N / 2][N / 2]));
  return 0;
}
