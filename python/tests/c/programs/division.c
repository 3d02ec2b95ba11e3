/* Division of integers of 128 bits. */
#include "wavescalar.h"

typedef unsigned __int128 wide;
typedef __int128 signed_wide;

static wide read_wide(void) {
  wide high = ws_read();
  return high << 64 | ws_read();
}
static void show(wide x) { ws_print((unsigned long)(x >> 64)), ws_print((unsigned long)x); }

int main(void) {
  for (unsigned n = (unsigned)ws_read(); n; n--) {
    wide a = read_wide(), b = read_wide();
    show(a / b), show(a % b);
    show((wide)((signed_wide)a / (signed_wide)b)), show((wide)((signed_wide)a % (signed_wide)b));
    show(a / 10), show((wide)((signed_wide)a / 1000)), show(a % 1000000007), show((wide)((signed_wide)a / -16));
  }
}
