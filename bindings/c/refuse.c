/* Refuses each allocation of each call in turn, one alone and all from it on, for each file that is named. A refused call has to
   leave no block and nothing changed; made again it has to give what it gives where nothing is refused. A file whose name ends
   with .entries is one of entries (entries.h); the others are texts.

   Blocks are counted while a call runs. */
#include "allocations.h"
#include "entries.h"
#include "text.h"

#include <stdio.h>
#include <stdlib.h>
#include <string.h>

enum { ROOM = 1 << 18, FAULTS = 3, FACTS = 64 };

/* What a call may write. */
typedef struct written {
  nixu_verdict told[FAULTS];
  nixu_stray stray;
  nixu_fact facts[FACTS];
  nixu_merge_fault fault;
  size_t needed;
  uint8_t out[ROOM];
} written;

typedef uint32_t tried(bytes text, written *to);

static uint32_t audit(bytes text, written *to) { return nixu_audit(text.at, text.length, 1, to->told); }

static uint32_t audit_each(bytes text, written *to) {
  static const uint16_t faults[FAULTS] = {0, 2, 1};
  return nixu_audit_each(text.at, text.length, faults, FAULTS, to->told, FAULTS);
}

static uint32_t line(bytes text, written *to) {
  return nixu_line(text.at, text.length, 1, to->out, ROOM, &to->needed);
}

static uint32_t explain(bytes text, written *to) {
  return nixu_explain(text.at, text.length, 1, to->out, ROOM, &to->needed);
}

static uint32_t draw(bytes text, written *to) {
  return nixu_draw(text.at, text.length, 1, to->out, ROOM, &to->needed);
}

static uint32_t replays(bytes text, written *to) {
  return nixu_replays(text.at, text.length, &to->stray);
}

static uint32_t facts(bytes text, written *to) {
  return nixu_facts(text.at, text.length, 1, to->told, to->facts, FACTS, &to->needed);
}

/* Recordings of two processes. */
static uint32_t merge(bytes text, written *to) {
  static const char lines[] = "[\"recording\",0,1,2,7]\n[\"send\",0,1,1,0]\n[\"recording\",1,1,2,7]\n[\"deliver\",1,2,0,0,0,0,[[0,0,1,0]]]\n";
  const nixu_recording halves[] = {{(const uint8_t *)lines, 40}, {(const uint8_t *)lines + 40, sizeof lines - 41}};
  return text.at ? nixu_merge(halves, 2, 9, to->out, ROOM, &to->needed, &to->fault) : NIXU_CLOSED;
}

/* The facts of the complete lines of a text that has not ended. An error of the text is one of feeding it. */
static uint32_t facts_so_far(bytes text, written *to) {
  nixu_reader reader = {0};
  size_t half = text.length / 2;
  uint32_t status = nixu_reader_open(&reader);
  if (status == NIXU_OK) status = nixu_reader_feed(&reader, text.at, half, to->told);
  if (status == NIXU_OK) status = nixu_reader_facts(&reader, 1, to->told, to->facts, FACTS, &to->needed);
  nixu_reader_close(&reader);
  return status;
}

/* A text in two pieces. After an error nothing is left open. */
static uint32_t fed(bytes text, written *to) {
  static const uint16_t faults[FAULTS] = {0, 2, 1};
  nixu_reader reader = {0};
  size_t half = text.length / 2;
  uint32_t status = nixu_reader_open(&reader);
  if (status == NIXU_OK) status = nixu_reader_feed(&reader, text.at, half, to->told);
  if (status == NIXU_OK) status = nixu_reader_feed(&reader, text.at + half, text.length - half, to->told);
  if (status == NIXU_OK) status = nixu_reader_finish(&reader, faults, FAULTS, to->told, FAULTS);
  return reader.held || reader.full ? NIXU_CLOSED : status;
}

static recording all;

/* From now on nothing is refused, and the push is made again: the trace has to be as it was. */
static int is_freed(void) {
  int was_refused = first_refused != 0;
  first_refused = 0;
  return was_refused;
}

static uint32_t recorded_by(nixu_trace *trace) {
  size_t at;
  uint32_t fault, status = nixu_trace_open(trace, all.processes);
  return status == NIXU_OK ? push_all(trace, &all, &at, &fault, is_freed) : status;
}

static uint32_t entries_audit(bytes text, written *to) {
  nixu_trace trace = {0};
  uint32_t status = recorded_by(&trace);
  if (status == NIXU_OK) status = nixu_trace_audit(&trace, 1, to->told);
  nixu_trace_close(&trace);
  return trace.held || trace.full || text.at ? NIXU_CLOSED : status;
}

static uint32_t entries_text(bytes text, written *to) {
  nixu_trace trace = {0};
  uint32_t status = recorded_by(&trace);
  if (status == NIXU_OK) status = nixu_trace_text(&trace, to->out, ROOM, &to->needed);
  nixu_trace_close(&trace);
  return trace.held || trace.full || text.at ? NIXU_CLOSED : status;
}

static uint32_t entries_replays(bytes text, written *to) {
  nixu_trace trace = {0};
  uint32_t status = recorded_by(&trace);
  if (status == NIXU_OK) status = nixu_trace_replays(&trace, &to->stray);
  nixu_trace_close(&trace);
  return trace.held || trace.full || text.at ? NIXU_CLOSED : status;
}

static uint32_t entries_facts(bytes text, written *to) {
  nixu_trace trace = {0};
  uint32_t status = recorded_by(&trace);
  if (status == NIXU_OK) status = nixu_trace_facts(&trace, 1, to->told, to->facts, FACTS, &to->needed);
  nixu_trace_close(&trace);
  return trace.held || trace.full || text.at ? NIXU_CLOSED : status;
}

/* Calls, with the allocation of that number refused, from 1; with none where it is 0. */
static uint32_t called(tried *call, bytes text, written *to, long refused) {
  memset(to, 0xa5, sizeof *to);
  asked = 0;
  first_refused = refused;
  counts = 1;
  uint32_t status = call(text, to);
  counts = 0;
  return status;
}

static long wrong;

static void expect(int holds, const char *what, const char *name, const char *path) {
  if (holds) return;
  wrong++;
  printf("%s of %s: %s\n", name, path, what);
}

/* Tries the call with one allocation refused. A call may do without memory that it was refused; its answer is then the same. */
static void try_one(tried *call, const char *name, const char *path, bytes text, const written *whole, long refused) {
  static written now, before;
  memset(&before, 0xa5, sizeof before);
  uint32_t status = called(call, text, &now, refused);
  expect(blocks == 0, "a block is left", name, path);
  if (status != NIXU_NO_MEMORY) {
    expect(!memcmp(&now, whole, sizeof now), "another answer", name, path);
    return;
  }
  expect(!memcmp(&now, &before, sizeof now), "something changed", name, path);
  expect(called(call, text, &now, 0) <= NIXU_FAULT, "refused again", name, path);
  expect(!memcmp(&now, whole, sizeof now), "another answer than before", name, path);
}

static long try_call(tried *call, const char *name, const char *path, bytes text) {
  static written whole;
  expect(called(call, text, &whole, 0) <= NIXU_FAULT && blocks == 0, "does not succeed", name, path);
  long growths = asked;
  for (long refused = 1; refused <= growths; refused++)
    for (all_from_first = 0; all_from_first < 2; all_from_first++) try_one(call, name, path, text, &whole, refused);
  return growths;
}

static long try_text(const char *path) {
  bytes text = read_file(path);
  if (!text.at) return 0;
  long growths = try_call(audit, "nixu_audit", path, text);
  growths += try_call(audit_each, "nixu_audit_each", path, text);
  growths += try_call(line, "nixu_line", path, text);
  growths += try_call(explain, "nixu_explain", path, text);
  growths += try_call(draw, "nixu_draw", path, text);
  growths += try_call(replays, "nixu_replays", path, text);
  growths += try_call(facts, "nixu_facts", path, text);
  growths += try_call(facts_so_far, "nixu_reader_facts", path, text);
  growths += try_call(merge, "nixu_merge", path, text);
  growths += try_call(fed, "a fed reader", path, text);
  free(text.at);
  return growths;
}

static long try_entries(const char *path) {
  bytes none = {NULL, 0};
  long growths = 0;
  if (read_recording(path, &all)) {
    growths += try_call(entries_audit, "nixu_trace_audit", path, none);
    growths += try_call(entries_text, "nixu_trace_text", path, none);
    growths += try_call(entries_replays, "nixu_trace_replays", path, none);
    growths += try_call(entries_facts, "nixu_trace_facts", path, none);
  }
  free_recording(&all);
  return growths;
}

static int is_of_entries(const char *path) {
  const char *end = strrchr(path, '.');
  return end && !strcmp(end, ".entries");
}

int main(int argc, char **argv) {
  long growths = 0;
  for (int i = 1; i < argc; i++) {
    long more = is_of_entries(argv[i]) ? try_entries(argv[i]) : try_text(argv[i]);
    expect(more > 0, "nothing was refused", "a file", argv[i]);
    growths += more;
  }
  printf("%ld allocations were refused, alone and with all after; %ld wrong\n", growths, wrong);
  return wrong || !growths;
}
