/* Sound of 16 bits to 4 and back, by the method of IMA (the kind of MiBench). Reads a seed, and how many
   blocks of 64 samples. Prints the sum of the codes and that of the errors. */
#include <stdint.h>
#include "wavescalar.h"

#define BLOCK 64

static const int16_t steps[89] = {
    7, 8, 9, 10, 11, 12, 13, 14, 16, 17, 19, 21, 23, 25, 28, 31, 34, 37, 41, 45, 50, 55, 60, 66, 73, 80, 88, 97, 107, 118, 130,
    143, 157, 173, 190, 209, 230, 253, 279, 307, 337, 371, 408, 449, 494, 544, 598, 658, 724, 796, 876, 963, 1060, 1166, 1282,
    1411, 1552, 1707, 1878, 2066, 2272, 2499, 2749, 3024, 3327, 3660, 4026, 4428, 4871, 5358, 5894, 6484, 7132, 7845, 8630, 9493,
    10442, 11487, 12635, 13899, 15289, 16818, 18500, 20350, 22385, 24623, 27086, 29794, 32767};
static const int8_t moves[8] = {-1, -1, -1, -1, 2, 4, 6, 8};
static int16_t samples[BLOCK];
static uint8_t codes[BLOCK];

struct state { int value, index; };

static int limited(int x, int least, int most) { return x < least ? least : x > most ? most : x; }

static void move(struct state *s, unsigned code) {
  int step = steps[s->index], by = step >> 3;
  if (code & 4) by += step;
  if (code & 2) by += step >> 1;
  if (code & 1) by += step >> 2;
  s->value = limited(code & 8 ? s->value - by : s->value + by, -32768, 32767);
  s->index = limited(s->index + moves[code & 7], 0, 88);
}
static unsigned coded(struct state *s, int sample) {
  int off = sample - s->value, step = steps[s->index];
  unsigned code = 0;
  if (off < 0) code = 8, off = -off;
  if (off >= step) code |= 4, off -= step;
  step >>= 1;
  if (off >= step) code |= 2, off -= step;
  step >>= 1;
  if (off >= step) code |= 1;
  move(s, code);
  return code;
}

int main(void) {
  uint32_t seed = (uint32_t)ws_read(), sum = 0, errors = 0;
  struct state to = {0, 0}, from = {0, 0};
  int height = 0;
  for (unsigned long blocks = ws_read(); blocks; blocks--) {
    for (int k = 0; k < BLOCK; k++) {
      seed = seed * 1103515245u + 12345u;
      height += (int)(seed >> 20) - 2048 - height / 16;
      samples[k] = (int16_t)limited(height, -32768, 32767);
    }
    for (int k = 0; k < BLOCK; k++) sum += codes[k] = (uint8_t)coded(&to, samples[k]);
    for (int k = 0; k < BLOCK; k++) {
      move(&from, codes[k]);
      int off = samples[k] - from.value;
      errors += (uint32_t)(off < 0 ? -off : off);
    }
  }
  ws_print(sum), ws_print(errors);
  return 0;
}
