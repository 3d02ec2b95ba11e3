/* A timing model of one's own, driven by a trace: it reads what `wsc trace` prints, gives each event a
   cycle, and writes the text again, its events by their cycles, for `wsc replay` to judge. Instruction I
   lies on element I modulo 8, which fires one instance a cycle; an operand takes 1 cycle to its own
   element, 3 to another; requests take 3, and one is issued a cycle. A token is there when all have sent
   that may have sent it, of what stands before it in the trace: no value is asked for. At most 1,023
   instructions. */
#include <stdio.h>
#include <stdlib.h>
#include <string.h>
enum { ELEMENTS = 8, NEAR = 1, FAR = 3, INSTRS = 1 << 10, WAVES = 1 << 16, MOST = 1 << 22 };
typedef struct { int from, next; } Arc; /* an instruction that sends to a port, and the port's next arc */
typedef struct { int cycle, at; char line[40]; } Event;
static int first[INSTRS][4], ports[INSTRS], advances[INSTRS], asks[INSTRS]; /* of each instruction */
static int sends[INSTRS][2], send_count, pads[MOST][3], pad_count, arc_count, event_count, last_issue;
static Arc arcs[MOST]; static Event events[MOST];
static int *sent, *came, *fires, *taken[ELEMENTS]; /* cycles by instance; those in which an element fires */
static int *table(size_t many) { return calloc(many, sizeof(int)); }

static void arc(int from, int to, int port) {
  arcs[++arc_count] = (Arc){from, first[to][port]};
  first[to][port] = arc_count;
}
static void read_line(char *line) {
  char *words[4096], *word;
  int count = 0, is_pad = !strncmp(line, "pad", 3), is_send, has_note = strchr(line, '<') != NULL;
  for (word = strtok(line, " :,<>|\n"); word; word = strtok(NULL, " :,<>|\n")) words[count++] = word;
  if (!is_pad && (!count || *words[0] < '0' || *words[0] > '9')) return;
  int instr = atoi(words[0]), at = is_pad ? 2 : 1;
  is_send = !is_pad && !strcmp(words[1], "send");
  if (is_send) sends[send_count][0] = instr, sends[send_count++][1] = atoi(words[2]);
  if (!is_pad) advances[instr] = !strcmp(words[1], "advance"), asks[instr] = has_note;
  while (!is_pad && at < count && strcmp(words[at++], "-")) {}
  for (; at < count && !is_send; at++) {
    int to = atoi(words[at]), port = atoi(strchr(words[at], '.') + 1), *pad = pads[pad_count];
    if (is_pad) pad[0] = atoi(words[1]), pad[1] = to, pad[2] = port, pad_count++;
    else arc(instr, to, port);
    if (ports[to] <= port) ports[to] = port + 1;
  }
}
/* The cycle of a token: the last in which one comes that may be it. */
static int match(int wave, int instr, int port) {
  int comes = 1, here = wave * INSTRS + instr;
  for (int at = first[instr][port]; at; at = arcs[at].next) {
    int from = arcs[at].from, of = wave - advances[from], when = of < 0 ? 0 : sent[of * INSTRS + from];
    if (when) when += !asks[from] && from % ELEMENTS == instr % ELEMENTS ? NEAR : FAR;
    if (comes < when) comes = when;
  }
  if (fires[here] < comes) fires[here] = comes;
  if (++came[here] < ports[instr]) return comes;
  while (taken[instr % ELEMENTS][fires[here]]) fires[here]++;
  taken[instr % ELEMENTS][fires[here]] = 1;
  if (!asks[instr]) sent[here] = fires[here];
  return fires[here];
}

static int by_cycle(const void *a, const void *b) {
  const Event *x = a, *y = b;
  return x->cycle != y->cycle ? x->cycle - y->cycle : x->at - y->at;
}
int main(void) {
  static char line[1 << 16], copy[1 << 16];
  sent = table(INSTRS * WAVES), came = table(INSTRS * WAVES), fires = table(INSTRS * WAVES);
  for (int element = 0; element < ELEMENTS; element++) taken[element] = table(8 * MOST);
  for (int own = 1; fgets(line, sizeof line, stdin) && fputs(line, stdout) >= 0 && strcmp(line, "%trace\n");)
    if ((own = own && *line != '%')) read_line(strcpy(copy, line));
  for (int send = 0; send < send_count; send++)
    for (int pad = 0; pad < pad_count; pad++)
      if (sends[send][1] == pads[pad][0]) arc(sends[send][0], pads[pad][1], pads[pad][2]);
  for (int wave, instr, port; event_count < MOST && fgets(line, 40, stdin); event_count++) {
    Event *it = &events[event_count];
    it->at = event_count, strcpy(it->line, line);
    if (sscanf(line, "match %d %d %d", &wave, &instr, &port) == 3) it->cycle = match(wave, instr, port);
    else if (sscanf(line, "issue %d %d", &wave, &instr) == 2) {
      int ready = fires[wave * INSTRS + instr] + FAR;
      it->cycle = sent[wave * INSTRS + instr] = last_issue = ready > last_issue ? ready : last_issue + 1;
    }
  }
  qsort(events, event_count, sizeof *events, by_cycle);
  for (int at = 0; at < event_count; at++) printf("# cycle %d\n%s", events[at].cycle, events[at].line);
}
