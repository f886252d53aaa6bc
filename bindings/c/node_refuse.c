/* Refuses each allocation of each call of a node in turn, one alone and all from it on, in a run with a crash and a recovery. A
   refused call has to change nothing; made again it has to give what it gives where nothing is refused. In the end no block is left. */
#include "allocations.h"
#include "nixu.h"

#include <stdio.h>
#include <stdlib.h>
#include <string.h>

enum { ROOM = 4096, PROCESSES = 3 };

static nixu_node nodes[PROCESSES];
static nixu_node_sent sent;
static nixu_node_received received;
static nixu_determinant open_dets[8];
static uint8_t out[ROOM];
static size_t needed;
static uint32_t fault;

/* What is written by calls, as one number: FNV-1a. */
static uint64_t hashed(uint64_t hash, const void *at, size_t length) {
  const uint8_t *byte = at;
  for (size_t i = 0; i < length; i++) hash = (hash ^ byte[i]) * UINT64_C(1099511628211);
  return hash;
}

/* All that can be seen of a node. Nothing is refused meanwhile. */
static uint64_t seen(uint64_t hash, nixu_node *node) {
  typedef uint32_t writes(nixu_node *, uint8_t *, size_t, size_t *);
  static writes *const bytes[] = {nixu_node_line, nixu_node_parcel, nixu_node_body, nixu_node_header};
  nixu_node_state state;
  nixu_node_message due;
  nixu_determinant dets[8];
  uint8_t processes[256];
  size_t count, i;
  memset(&state, 0, sizeof state);
  memset(&due, 0, sizeof due);
  if (nixu_node_inspect(node, &state) != NIXU_OK) return hashed(hash, "closed", 6);
  hash = hashed(hash, &state.clock, sizeof state.clock);
  hash = hashed(hash, &state.stage, sizeof state.stage);
  hash = hashed(hash, &state.logged, 3 * sizeof state.logged);
  if (nixu_node_due(node, &due) == NIXU_OK) hash = hashed(hash, &due.ssn, sizeof due.ssn);
  if (nixu_node_awaited(node, processes) == NIXU_OK) hash = hashed(hash, processes, sizeof processes);
  for (i = 0; i < sizeof bytes / sizeof *bytes; i++)
    if (bytes[i](node, out, ROOM, &needed) == NIXU_OK) hash = hashed(hash, out, needed);
  if (nixu_node_listed(node, dets, 8, &count) == NIXU_OK) hash = hashed(hash, &count, sizeof count);
  for (i = 0; i < count; i++) hash = hashed(hash, &dets[i].rsn, sizeof dets[i].rsn);
  return hash;
}

static uint64_t seen_all(void) {
  uint64_t hash = UINT64_C(14695981039346656037);
  for (int p = 0; p < PROCESSES; p++) hash = seen(hash, &nodes[p]);
  return hash;
}

static uint32_t open_node(uint8_t process, uint32_t lane, uint64_t clock) {
  nixu_node_identity identity = {4711, clock, 1, lane, PROCESSES, 1, process};
  return nixu_node_open(&nodes[process], &identity, &fault);
}

/* What the last call of one node has kept goes to another. */
static uint32_t pass(int from, int to, uint64_t now) {
  uint8_t parcel[ROOM];
  size_t length;
  if (nixu_node_parcel(&nodes[from], parcel, ROOM, &length) != NIXU_OK) return NIXU_CLOSED;
  return nixu_node_receive(&nodes[to], now, parcel, length, &received, &fault);
}

static uint32_t acknowledge(void) {
  size_t count;
  if (nixu_node_listed(&nodes[2], open_dets, 8, &count) != NIXU_OK) return NIXU_CLOSED;
  return nixu_node_acknowledge(&nodes[2], 30, 1, open_dets, count, &fault);
}

/* The calls of the run, in turn. */
static uint32_t step(int number) {
  static const nixu_determinant stored = {0, 0, 0, 1};
  switch (number) {
  case 0: return open_node(0, 0, 0);
  case 1: return open_node(1, 0, 0);
  case 2: return open_node(2, 0, 0);
  case 3: return nixu_node_header(&nodes[0], out, ROOM, &needed);
  case 4: return nixu_node_send(&nodes[0], 10, 1, (const uint8_t *)"body", 4, &sent, &fault);
  case 5: return nixu_node_line(&nodes[0], out, ROOM, &needed);
  case 6: return pass(0, 1, 11);
  case 7: return nixu_node_line(&nodes[1], out, ROOM, &needed);
  case 8: return nixu_node_send(&nodes[1], 12, 2, NULL, 0, &sent, &fault);
  case 9: return pass(1, 2, 13);
  case 10: return acknowledge();
  case 11: return pass(2, 1, 31);
  case 12: return nixu_node_unstored(&nodes[2], open_dets, 8, &needed);
  case 13: nixu_node_close(&nodes[1]); return nixu_crash_line(1, 40, out, ROOM, &needed);
  case 14: return open_node(1, 1, 40);
  case 15: return nixu_node_begin_round(&nodes[1], 7, &fault);
  case 16: return nixu_node_question(&nodes[1], 50, 2, &fault);
  case 17: return pass(1, 2, 51);
  case 18: return pass(2, 1, 52);
  case 19: return nixu_node_question(&nodes[1], 53, 0, &fault);
  case 20: return pass(1, 0, 54);
  case 21: return pass(0, 1, 55);
  case 22: return nixu_node_stored(&nodes[1], 60, &stored, &fault);
  case 23: return nixu_node_line(&nodes[1], out, ROOM, &needed);
  case 24: return nixu_node_finish_read(&nodes[1], 7, &fault);
  case 25: return nixu_node_restart(&nodes[1], 61, &fault);
  case 26: return nixu_node_line(&nodes[1], out, ROOM, &needed);
  case 27: return nixu_node_resend(&nodes[0], 0, &fault);
  case 28: return pass(0, 1, 62);
  case 29: return nixu_node_send(&nodes[1], 63, 2, (const uint8_t *)"more", 4, &sent, &fault);
  case 30: return nixu_node_forget(&nodes[1], 64, &fault);
  case 31: return nixu_node_line(&nodes[1], out, ROOM, &needed);
  default: return NIXU_MISUSED;
  }
}

static long wrong;

static void expect(int holds, const char *what, int number) {
  if (holds) return;
  wrong++;
  printf("call %d: %s\n", number, what);
}

/* Makes the call with one of its allocations refused, and again if it does without success. Returns how many it asked for. */
static long make(int number, long refused) {
  uint64_t before = seen_all();
  asked = 0;
  first_refused = refused;
  uint32_t status = step(number);
  long growths = asked;
  first_refused = 0;
  if (status == NIXU_NO_MEMORY) {
    expect(refused > 0, "memory was refused without cause", number);
    expect(number == 13 || seen_all() == before, "something changed", number);
    status = step(number);
  }
  expect(status == NIXU_OK, "the call does not succeed", number);
  return growths;
}

/* The whole run, in which an allocation of one call is refused. Returns all that could be seen after each call. */
static uint64_t run(int target, long refused, long *growths) {
  uint64_t hash = UINT64_C(14695981039346656037);
  counts = 1;
  for (int number = 0; number < 32; number++) {
    long more = make(number, number == target ? refused : 0);
    if (number == target) *growths = more;
    uint64_t now = seen_all();
    hash = hashed(hash, &now, sizeof now);
  }
  for (int p = 0; p < PROCESSES; p++) nixu_node_close(&nodes[p]);
  counts = 0;
  expect(blocks == 0, "a block is left", target);
  blocks = 0;
  return hash;
}

int main(void) {
  long all = 0, growths = 0;
  uint64_t whole = run(-1, 0, &growths);
  for (int target = 0; target < 32; target++) {
    run(target, 0, &growths);
    for (long refused = 1, last = growths; refused <= last; refused++)
      for (all_from_first = 0; all_from_first < 2; all_from_first++)
        expect(run(target, refused, &growths) == whole, "another run than before", target);
    all_from_first = 0;
    run(target, 0, &growths);
    all += growths;
  }
  printf("%ld allocations of a node were refused, alone and with all after; %ld wrong\n", all, wrong);
  return wrong || !all;
}
