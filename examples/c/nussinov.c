/* The most pairs of bases in a string of 24, by Nussinov's dynamic programming (the kind of PolyBench). Reads
   a seed, and how often; each time the string is another one. Prints the sum, and the last table's first row
   as a hash. */
#include <stdint.h>
#include "wavescalar.h"

#define N 24

static uint8_t bases[N];
static int16_t most[N][N];

static int16_t larger(int16_t a, int16_t b) { return a > b ? a : b; }

int main(void) {
  uint32_t seed = (uint32_t)ws_read(), sum = 0;
  for (unsigned long rounds = ws_read(); rounds; rounds--) {
    for (int i = 0; i < N; i++) {
      seed = seed * 1664525u + 1013904223u;
      bases[i] = seed >> 24 & 3;
    }
    for (int i = N - 1; i >= 0; i--) {
      most[i][i] = 0;
      for (int j = i + 1; j < N; j++) {
        int16_t best = larger(most[i][j - 1], most[i + 1 < N ? i + 1 : i][j]);
        int pairs = bases[i] + bases[j] == 3;
        best = larger(best, (int16_t)(i < j - 1 ? most[i + 1][j - 1] + pairs : pairs));
        for (int k = i + 1; k < j; k++) best = larger(best, (int16_t)(most[i][k] + most[k + 1][j]));
        most[i][j] = best;
      }
    }
    sum += (uint32_t)most[0][N - 1];
  }
  uint32_t hash = 0;
  for (int j = 0; j < N; j++) hash = hash * 31 + (uint32_t)most[0][j];
  ws_print(sum), ws_print(hash);
  return 0;
}
