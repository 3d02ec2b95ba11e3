/* A matcher of regular expressions with `.`, `*`, `+`, `?`, `^` and `$`, which goes back where it has to (the
   kind of Embench). Reads a seed, and how many texts. Prints how many each expression matches. */
#include <stdint.h>
#include "wavescalar.h"

#define LENGTH 24
#define EXPRESSIONS 5

static const char expressions[EXPRESSIONS][12] = {"^ab*c", "a.c+d$", "ba?b", "c*d*a$", "^.*abc"};
static char text[LENGTH + 1];
static unsigned counts[EXPRESSIONS];

static int is_one(char wanted, char c) { return c && (wanted == '.' || wanted == c); }

/* Whether an expression matches at a place. The deepest calls are as many as it has signs. */
static int matches(const char *expression, const char *at) {
  for (;;) {
    if (!*expression) return 1;
    if (*expression == '$' && !expression[1]) return !*at;
    char after = expression[1];
    if (after == '*' || after == '+' || after == '?') {
      int least = after == '+', most = after == '?' ? 1 : LENGTH, count = 0;
      while (count < most && is_one(*expression, at[count])) count++;
      for (; count >= least; count--)
        if (matches(expression + 2, at + count)) return 1;
      return 0;
    }
    if (!is_one(*expression, *at)) return 0;
    expression++, at++;
  }
}
static int is_in(const char *expression) {
  if (*expression == '^') return matches(expression + 1, text);
  for (const char *at = text;; at++) {
    if (matches(expression, at)) return 1;
    if (!*at) return 0;
  }
}

int main(void) {
  uint32_t seed = (uint32_t)ws_read();
  for (unsigned long rounds = ws_read(); rounds; rounds--) {
    for (int k = 0; k < LENGTH; k++) {
      seed = seed * 1664525u + 1013904223u;
      text[k] = (char)('a' + (seed >> 28) % 4);
    }
    for (int k = 0; k < EXPRESSIONS; k++) counts[k] += (unsigned)is_in(expressions[k]);
  }
  for (int k = 0; k < EXPRESSIONS; k++) ws_print(counts[k]);
  return 0;
}
