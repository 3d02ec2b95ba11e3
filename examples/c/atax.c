/* A matrix of 12 by 10 times a vector, and the transposed one times that, in numbers of fixed point (the kind
   of PolyBench). Reads a seed, and how often; each time the result, made small, is the next vector. Prints a
   hash of the last one. */
#include <stdint.h>
#include "wavescalar.h"

#define ROWS 12
#define COLUMNS 10

static int32_t a[ROWS][COLUMNS], x[COLUMNS], y[COLUMNS];

int main(void) {
  uint32_t seed = (uint32_t)ws_read();
  for (int i = 0; i < ROWS; i++)
    for (int j = 0; j < COLUMNS; j++) {
      seed = seed * 1664525u + 1013904223u;
      a[i][j] = (int32_t)(seed >> 18);
    }
  for (int j = 0; j < COLUMNS; j++) x[j] = 1000 + j;
  for (unsigned long rounds = ws_read(); rounds; rounds--) {
    for (int j = 0; j < COLUMNS; j++) y[j] = 0;
    for (int i = 0; i < ROWS; i++) {
      int64_t sum = 0;
      for (int j = 0; j < COLUMNS; j++) sum += (int64_t)a[i][j] * x[j];
      int32_t row = (int32_t)(sum >> 14);
      for (int j = 0; j < COLUMNS; j++) y[j] += (int32_t)((int64_t)a[i][j] * row >> 14);
    }
    for (int j = 0; j < COLUMNS; j++) x[j] = y[j] % 2003 + j;
  }
  uint32_t hash = 0;
  for (int j = 0; j < COLUMNS; j++) hash = hash * 31 + (uint32_t)x[j];
  ws_print(hash);
  return 0;
}
