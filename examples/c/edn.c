/* Work of signal processing: a filter, a product of vectors, a lattice, and a recursive filter, in 16 and 32
   bits (the kind of Embench). Reads a seed, and how often. Prints a hash. */
#include <stdint.h>
#include "wavescalar.h"

#define N 48
#define TAPS 8

static int16_t input[N + TAPS], taps[TAPS];
static int32_t output[N], ladder[TAPS], backward[TAPS + 1];

static void filter(void) {
  for (int n = 0; n < N; n++) {
    int32_t sum = 0;
    for (int k = 0; k < TAPS; k++) sum += input[n + k] * taps[k];
    output[n] = sum >> 15;
  }
}
static int32_t product(void) {
  int32_t sum = 0;
  for (int n = 0; n < N; n++) sum += (int32_t)((uint32_t)input[n] * (uint32_t)output[n]);
  return sum;
}
static int32_t lattice(int32_t forward) {
  for (int k = TAPS - 1; k >= 0; k--) {
    forward -= (int32_t)((int64_t)backward[k] * ladder[k] >> 16);
    backward[k + 1] = backward[k] + (int32_t)((int64_t)ladder[k] * forward >> 16);
  }
  return backward[0] = forward;
}
static void recursive(void) {
  int32_t one = 0, two = 0;
  for (int n = 0; n < N; n++) {
    int32_t next = input[n] + ((one * taps[0] - two * taps[1]) >> 15);
    two = one, one = next;
    output[n] += next;
  }
}

int main(void) {
  uint32_t seed = (uint32_t)ws_read(), hash = 0;
  for (unsigned long rounds = ws_read(); rounds; rounds--) {
    for (int n = 0; n < N + TAPS; n++) {
      seed = seed * 1103515245u + 12345u;
      input[n] = (int16_t)((int32_t)(seed >> 16 & 0xFFF) - 2048);
    }
    for (int k = 0; k < TAPS; k++) taps[k] = (int16_t)(input[k] * 3), ladder[k] = input[k + TAPS] * 5;
    filter();
    hash = hash * 31 + (uint32_t)product();
    for (int n = 0; n < N; n += 4) hash = hash * 31 + (uint32_t)lattice(output[n]);
    recursive();
    for (int n = 0; n < N; n++) hash = hash * 31 + (uint32_t)output[n];
  }
  ws_print(hash);
  return 0;
}
