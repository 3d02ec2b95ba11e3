/* Functions with a variable number of arguments: also recursive ones, called by pointers, with structs, and lists that
   are copied and handed on. */
#include <stdarg.h>
#include "wavescalar.h"

struct big { long a, b, c; };
struct two { int x; long y; };

static long in_list(const char *kinds, va_list list) {
  long sum = 0;
  for (; *kinds; kinds++) {
    sum *= 3;
    if (*kinds == 'i') sum += va_arg(list, int);
    else if (*kinds == 'l') sum += va_arg(list, long);
    else if (*kinds == 'c') sum += *va_arg(list, char *);
    else if (*kinds == 'b') {
      struct big b = va_arg(list, struct big);
      sum += b.a + 2 * b.b + 5 * b.c;
    } else if (*kinds == 't') {
      struct two t = va_arg(list, struct two);
      sum += t.x + t.y;
    }
  }
  return sum;
}
static long twice(const char *kinds, ...) {
  va_list list, other;
  va_start(list, kinds), va_copy(other, list);
  long sum = in_list(kinds, list) ^ (long)((unsigned long)in_list(kinds, other) << 7);
  va_end(list), va_end(other);
  return sum;
}
static int most(int count, ...) {
  va_list list;
  va_start(list, count);
  int found = va_arg(list, int);
  while (--count) {
    int next = va_arg(list, int);
    if (next > found) found = next;
  }
  va_end(list);
  return found;
}
static long deep(int n, ...) {
  va_list list;
  va_start(list, n);
  long x = va_arg(list, long);
  va_end(list);
  return n ? x + 2 * deep(n - 1, x * 3 + n) + deep(n - 1, x + 1) : x;
}
static long copied(struct big b, int n, ...) {
  va_list list;
  va_start(list, n);
  b.a += va_arg(list, int);
  va_end(list);
  return b.a * b.b - b.c * n;
}
static int none(int n, ...) { return n + 1; }

int main(void) {
  long a = (long)ws_read(), b = (long)ws_read();
  char c = 'q';
  struct big g = {a, b, 3};
  struct two t = {(int)a, b};
  ws_print((unsigned long)twice("ilcbt", (int)a, b, &c, g, t));
  ws_print((unsigned long)twice("lilcibb", a, 1, b, &c, -2, g, g));
  ws_print((unsigned long)most(9, (int)a, 2, 3, (int)b, 5, 6, 7, 8, 9));
  ws_print((unsigned long)deep(4, a));
  ws_print((unsigned long)copied(g, 4, (int)b)), ws_print((unsigned long)g.a);
  ws_print((unsigned long)none(3)), ws_print((unsigned long)none(4, g));
  long (*called)(const char *, ...) = a & 1 ? twice : 0;
  if (called) ws_print((unsigned long)called("lc", a, &c));
  int (*also)(int, ...) = a & 1 ? most : none;
  ws_print((unsigned long)also(2, 4, (int)a));
  int (*old)() = a & 1 ? (int (*)())in_list : 0;
  ws_print(old != 0);
}
