/* goto to computed labels: an interpreter's table, and offsets between labels. */
#include "wavescalar.h"

#define NEXT goto *(left-- ? table[code[at++] % 5] : &&halt)

static unsigned long run(const unsigned char *code, unsigned long sum) {
  static const void *const table[] = {&&halt, &&add, &&twice, &&minus, &&jump};
  unsigned at = 0, left = 50;
  NEXT;
add:
  sum += code[at++];
  NEXT;
twice:
  sum *= 2;
  NEXT;
minus:
  sum = 0 - sum;
  NEXT;
jump:
  at = sum & 1 ? 0 : 6;
  NEXT;
halt:
  return sum;
}
static int offsets(int n) {
  static const int where[] = {&&one - &&one, &&two - &&one, &&three - &&one};
  int sum = 0;
  void *to = &&one + where[n % 3];
  goto *to;
one:
  sum += 1;
two:
  sum += 10;
three:
  sum += 100;
  return to == &&two ? -sum : sum;
}

int main(void) {
  const unsigned char code[] = {1, 7, 2, 1, 3, 4, 3, 2, 1, 200, 0};
  for (int k = 0; k < 4; k++) ws_print(run(code, ws_read())), ws_print((unsigned long)offsets(k));
}
