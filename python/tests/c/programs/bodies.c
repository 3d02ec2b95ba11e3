/* The planets' motion: 64-bit floating point, as a benchmark of languages has it. */
#include <math.h>
#include "wavescalar.h"

struct body { double x, y, z, vx, vy, vz, mass; };
static struct body all[4] = {{0, 0, 0, 0, 0, 0, 39.47}, {4.84, -1.16, -.10, .6, 2.8, -.02, .037},
                             {8.34, 4.12, -.4, -1.01, 1.82, .008, .011}, {12.89, -15.11, -.22, 1.08, .86, -.01, .0017}};

static unsigned long bits_of(double x) {
  unsigned long found;
  __builtin_memcpy(&found, &x, sizeof x);
  return found;
}
static void pull(struct body *a, struct body *b, double time) {
  double x = a->x - b->x, y = a->y - b->y, z = a->z - b->z, square = x * x + y * y + z * z;
  double size = time / (square * sqrt(square)), to = b->mass * size, from = a->mass * size;
  a->vx -= x * to, a->vy -= y * to, a->vz -= z * to;
  b->vx += x * from, b->vy += y * from, b->vz += z * from;
}
int main(void) {
  for (unsigned long steps = ws_read(); steps; steps--) {
    for (int i = 0; i < 4; i++)
      for (int j = i + 1; j < 4; j++) pull(all + i, all + j, .01);
    for (int i = 0; i < 4; i++) all[i].x += .01 * all[i].vx, all[i].y += .01 * all[i].vy, all[i].z += .01 * all[i].vz;
  }
  for (int i = 0; i < 4; i++) ws_print(bits_of(all[i].x)), ws_print(bits_of(all[i].vy)), ws_print((unsigned long)(long)(all[i].z * 1e6));
}
