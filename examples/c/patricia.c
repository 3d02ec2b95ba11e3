/* A trie of addresses of 32 bits, with the bit to look at in each node (the kind of MiBench). Reads a seed,
   and how many addresses are put in or looked up. Prints how many were there, how many are, and the way's
   length for all. */
#include <stdint.h>
#include "wavescalar.h"

#define POOL 256

struct node { uint32_t key; int bit; struct node *sides[2]; };

static struct node pool[POOL];
static int used;

static unsigned bit_of(uint32_t key, int bit) { return key >> (31 - bit) & 1; }

static struct node *found(struct node *root, uint32_t key, uint32_t *way) {
  struct node *above = root, *at = root->sides[0];
  while (at->bit > above->bit) above = at, at = at->sides[bit_of(key, at->bit)], ++*way;
  return at;
}
static void put(struct node *root, uint32_t key, uint32_t other) {
  int bit = __builtin_clz(key ^ other);
  struct node *above = root, *at = root->sides[0];
  unsigned side = 0;
  while (at->bit > above->bit && at->bit < bit) above = at, side = bit_of(key, at->bit), at = at->sides[side];
  struct node *made = &pool[used++];
  made->key = key, made->bit = bit;
  made->sides[bit_of(key, bit)] = made, made->sides[!bit_of(key, bit)] = at;
  above->sides[side] = made;
}

int main(void) {
  uint32_t seed = (uint32_t)ws_read(), there = 0, way = 0;
  struct node *root = &pool[used++];
  root->bit = -1, root->key = 0, root->sides[0] = root->sides[1] = root;
  for (unsigned long count = ws_read(); count; count--) {
    seed = seed * 1664525u + 1013904223u;
    uint32_t key = (seed >> 8 & 0xFFFF) * 0x9E37u | 1;
    key ^= (seed >> 24 & 3) << 30;
    struct node *at = found(root, key, &way);
    if (at->key == key) there++;
    else if (used < POOL) put(root, key, at->key);
  }
  ws_print(there), ws_print((unsigned long)used), ws_print(way);
  return 0;
}
