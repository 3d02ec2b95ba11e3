/* Floating point in structs, by value and by address, and among a variable number of arguments. */
#include <stdarg.h>
#include "wavescalar.h"

struct pair { float x, y; };
struct mixed { double a; float b; long c; };
struct point { double x, y; };

static struct pair put(struct pair a, struct pair b) {
  struct pair found = {a.x + b.x, a.y * b.y};
  return found;
}
static struct point turned(struct point a, double by) {
  struct point found = {a.x * by - a.y, a.y * by + a.x};
  return found;
}
static double total(int n, ...) {
  va_list list;
  va_start(list, n);
  double sum = 0;
  while (n--) sum += va_arg(list, double) / va_arg(list, int);
  struct point last = va_arg(list, struct point);
  va_end(list);
  return sum * last.x - last.y;
}
static double moved(struct mixed from, struct mixed *to) {
  to->a += from.a, to->b -= from.b;
  return from.a * from.b + from.c;
}
static void show(double x) { ws_print((unsigned long)(long)(x * 1e4)); }

int main(void) {
  struct pair a = {ws_read(), 2.5f}, b = {1.25f, ws_read()};
  a = put(b, put(a, b));
  show(a.x), show(a.y);
  struct point c = {a.x, a.y};
  c = turned(turned(c, 1.5), .5);
  show(c.x), show(c.y), show(total(3, 1.5, 2, a.x, 7, c.y, (int)b.y, c));
  struct mixed from = {c.x, a.x, 77}, to = {1, 2, 3};
  show(moved(from, &to)), show(to.a * to.b);
  return 0;
}
