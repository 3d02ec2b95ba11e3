/* Cholesky's decomposition of matrices of 5 by 5, in `double`, and the solution of a system by it (the kind
   of PolyBench). Reads a seed, and how many matrices. Prints the bits of the sum of all solutions. */
#include <math.h>
#include <stdint.h>
#include "wavescalar.h"

#define N 5

static double a[N][N], x[N];

static unsigned long bits_of(double x) {
  unsigned long found;
  __builtin_memcpy(&found, &x, sizeof x);
  return found;
}
static void decompose(void) {
  for (int i = 0; i < N; i++)
    for (int j = 0; j <= i; j++) {
      double sum = a[i][j];
      for (int k = 0; k < j; k++) sum -= a[i][k] * a[j][k];
      a[i][j] = i == j ? sqrt(sum) : sum / a[j][j];
    }
}
static void solve(void) {
  for (int i = 0; i < N; i++) {
    for (int k = 0; k < i; k++) x[i] -= a[i][k] * x[k];
    x[i] /= a[i][i];
  }
  for (int i = N - 1; i >= 0; i--) {
    for (int k = i + 1; k < N; k++) x[i] -= a[k][i] * x[k];
    x[i] /= a[i][i];
  }
}

int main(void) {
  uint32_t seed = (uint32_t)ws_read();
  double sum = 0;
  for (unsigned long count = ws_read(); count; count--) {
    for (int i = 0; i < N; i++) {
      for (int j = 0; j < i; j++) {
        seed = seed * 1664525u + 1013904223u;
        a[i][j] = (seed >> 8) * 0x1p-24;
      }
      a[i][i] = N, x[i] = i + 1;
    }
    decompose(), solve();
    for (int i = 0; i < N; i++) sum += x[i];
  }
  ws_print(bits_of(sum));
  return 0;
}
