/* A run of three processes with a crash and a recovery, and each refusal of a node. The bytes of parcels and the lines are worked by
   hand from docs/WIRE.md and docs/MERGING.md. Prints the lines of all recordings, of which `causal_tool merge` makes a trace. */
#include "nixu.h"

#include <stdio.h>
#include <stdlib.h>
#include <string.h>

enum { ROOM = 1 << 16, PROCESSES = 3, SHORTEST = 28, MOST_SENDS = 65536 };

#define RUN UINT64_C(0x0102030405060708)
#define HEAD 1, 2, 3, 4, 5, 6, 7, 8, 0, 3, 0, 1
#define END_OF_CLOCKS (UINT64_C(1) << 62)

/* The first message of process 0, to process 1, at clock 1000, with the body 7. It carries nothing. */
static const uint8_t FIRST[] = {1, 0, HEAD, 0, 1, 0, 0, 0, 0, 0, 0, 0, 0, 0, 0, 3, 232, 0, 0, 0, 0, 0, 0, 0, 0, 0, 0, 0, 1, 7};

/* The first message of process 1, to process 2, at clock 1005. It carries that process 1 delivered the first one. */
static const uint8_t SECOND[] = {1, 0, HEAD, 1, 2, 0, 0, 0, 0, 0, 0, 0, 0, 0, 0, 3, 237, 0, 0, 0, 0,
                                 0, 0, 0, 1, 0, 0, 0, 0, 0, 1, 0, 0, 0, 0, 0, 0, 0, 0, 0};

/* Process 1, whose next lane is 1, asks process 2 in round 7, at clock 2000. */
static const uint8_t QUESTION[] = {1, 2, HEAD, 1, 2, 0, 0, 0, 1, 0, 0, 0, 0, 0, 0, 7, 208, 0, 0, 0, 0, 0, 0, 0, 7, 0, 0, 0, 0, 0, 0, 0,
                                   1, 0, 0, 0, 0};

/* Process 2 replies, at clock 2001: it logs both deliveries, and knows that process 1 held the first one. */
static const uint8_t ANSWER[] = {1, 3, HEAD, 2, 1, 0, 0, 0, 0, 0, 0, 0, 0, 0, 0, 7, 209, 0, 0, 0, 0, 0, 0, 0, 7, 0, 0, 0, 2,
                                 0, 0, 0, 0, 0, 1, 0, 0, 0, 0, 1, 1, 0, 1, 0, 0, 0, 0, 2, 0, 0, 0, 0, 0, 0};

static int wrong;

static void expect(int holds, const char *what) {
  if (holds) return;
  wrong++;
  fprintf(stderr, "not so: %s\n", what);
}

typedef struct kept {
  uint8_t at[ROOM];
  size_t length;
} kept;

typedef uint32_t writes(nixu_node *node, uint8_t *out, size_t room, size_t *needed);

/* The bytes of a call that writes some; in two steps, of which the first has half of the room. */
static kept read_all(nixu_node *node, writes *call) {
  static kept got, half;
  memset(&half, 0xa5, sizeof half);
  if (call(node, got.at, ROOM, &got.length) != NIXU_OK) exit(1);
  if (call(node, half.at, got.length / 2, &half.length) != NIXU_OK) exit(1);
  expect(half.length == got.length && !memcmp(half.at, got.at, got.length / 2), "a small room gets the front");
  expect(half.at[got.length / 2] == 0xa5, "and nothing after it");
  return got;
}

static int has(const kept *got, const void *at, size_t length) { return got->length == length && !memcmp(got->at, at, length); }

/* The line that the last call has kept has to be this one; it is printed. */
static void expect_line(nixu_node *node, const char *line) {
  kept got = read_all(node, nixu_node_line);
  expect(has(&got, line, strlen(line)), line);
  fwrite(got.at, 1, got.length, stdout);
}

static kept parcel_of(nixu_node *node) { return read_all(node, nixu_node_parcel); }

static void open_node(nixu_node *node, uint8_t process, uint32_t lane, uint64_t clock) {
  nixu_node_identity identity = {RUN, clock, 12345, lane, PROCESSES, 1, process};
  uint32_t fault = 0;
  if (nixu_node_open(node, &identity, &fault) != NIXU_OK) exit(1);
  kept header = read_all(node, nixu_node_header);
  char line[ROOM];
  int length = snprintf(line, ROOM, "[\"recording\",%u,1,3,72623859790382856]\n", (unsigned)process);
  expect(has(&header, line, (size_t)length), "the header of a recording");
  printf("\n%s", line);
}

static void send_to(nixu_node *node, uint64_t now, uint8_t to, const uint8_t *body, size_t length, nixu_node_sent *sent) {
  uint32_t fault = 0;
  expect(nixu_node_send(node, now, to, body, length, sent, &fault) == NIXU_OK, "a message is sent");
  expect(parcel_of(node).length == sent->parcel, "the parcel has its length");
}

static nixu_node_received receive(nixu_node *node, uint64_t now, const uint8_t *bytes, size_t length) {
  nixu_node_received got = {0, 0, 0, 0, 77, 0, 0, 0, 0};
  uint32_t fault = 0;
  expect(nixu_node_receive(node, now, bytes, length, &got, &fault) == NIXU_OK, "a parcel is received");
  return got;
}

static nixu_node_state state_of(nixu_node *node) {
  nixu_node_state state;
  if (nixu_node_inspect(node, &state) != NIXU_OK) exit(1);
  return state;
}

/* The parcel is refused for this reason, and nothing changes. */
static void expect_refused(nixu_node *node, const uint8_t *bytes, size_t length, uint32_t number, const char *what) {
  nixu_node_received got, same;
  nixu_node_state before = state_of(node), after;
  kept line = read_all(node, nixu_node_line), again;
  uint32_t fault = 0;
  memset(&got, 0xa5, sizeof got);
  memset(&same, 0xa5, sizeof same);
  expect(nixu_node_receive(node, 0, bytes, length, &got, &fault) == NIXU_FAULT && fault == number, what);
  after = state_of(node);
  again = read_all(node, nixu_node_line);
  expect(!memcmp(&got, &same, sizeof got), "nothing was written");
  expect(before.clock == after.clock && before.received == after.received && before.logged == after.logged, "the node is as before");
  expect(has(&line, again.at, again.length), "so is what it has kept");
}

/* A copy of bytes in which one is another. */
static void expect_changed_refused(nixu_node *node, const uint8_t *bytes, size_t length, size_t at, uint8_t byte, uint32_t number,
                                   const char *what) {
  uint8_t changed[ROOM];
  memcpy(changed, bytes, length);
  changed[at] = byte;
  expect_refused(node, changed, length, number, what);
}

/* ---- the run */

static nixu_node nodes[PROCESSES];

static void send_and_deliver(void) {
  static const uint8_t seven = 7;
  nixu_node_sent sent;
  kept parcel;
  send_to(&nodes[0], 1000, 1, &seven, 1, &sent);
  expect(sent.clock == 1000 && sent.ssn == 0, "the first message");
  parcel = parcel_of(&nodes[0]);
  expect(has(&parcel, FIRST, sizeof FIRST), "its bytes");
  expect_line(&nodes[0], "[\"send\",0,1000,1,0]\n");
  nixu_node_received got = receive(&nodes[1], 900, FIRST, sizeof FIRST);
  expect(got.kind == NIXU_RECEIVED_MESSAGE && got.clock == 1001 && got.source == 0 && got.ssn == 0, "it is delivered");
  expect(got.rsn == 0 && got.lane == 0 && got.body == 1 && got.listed == 1 && got.parcel == 0, "with these numbers");
  kept body = read_all(&nodes[1], nixu_node_body);
  expect(has(&body, &seven, 1), "with its body");
  expect_line(&nodes[1], "[\"deliver\",1,1001,0,0,0,0,[[0,0,1,0]]]\n");
  send_to(&nodes[1], 1005, 2, NULL, 0, &sent);
  parcel = parcel_of(&nodes[1]);
  expect(has(&parcel, SECOND, sizeof SECOND), "the bytes of the second message");
  expect_line(&nodes[1], "[\"send\",1,1005,2,0]\n");
  got = receive(&nodes[2], 1100, SECOND, sizeof SECOND);
  expect(got.body == 0 && got.listed == 2, "it carries a determinant");
  expect_line(&nodes[2], "[\"deliver\",2,1100,1,0,0,0,[[0,0,1,0],[1,0,2,0]]]\n");
}

/* Process 2 acknowledges what its delivery lists. */
static void acknowledge(void) {
  nixu_determinant listed[2];
  size_t needed = 0;
  uint32_t fault = 0;
  expect(nixu_node_listed(&nodes[2], listed, 1, &needed) == NIXU_OK && needed == 2, "two are listed, and one has room");
  expect(nixu_node_listed(&nodes[2], listed, 2, &needed) == NIXU_OK && listed[1].source == 1 && listed[1].dest == 2, "both have room");
  expect(nixu_node_acknowledge(&nodes[2], 1101, 1, listed, 2, &fault) == NIXU_OK, "they are acknowledged");
  kept parcel = parcel_of(&nodes[2]), line = read_all(&nodes[2], nixu_node_line);
  expect(parcel.length == SHORTEST + 4 + 12 + 11 && parcel.at[1] == 1 && line.length == 0, "a parcel without a line");
  nixu_node_received got = receive(&nodes[1], 0, parcel.at, parcel.length);
  expect(got.kind == NIXU_RECEIVED_ACKNOWLEDGEMENT && got.source == 2, "process 1 learns the holders");
}

static void crash(void) {
  uint8_t line[ROOM];
  size_t needed;
  nixu_node_close(&nodes[1]);
  expect(nixu_crash_line(1, 1200, line, ROOM, &needed) == NIXU_OK, "who sees the end writes it");
  expect(needed == 17 && !memcmp(line, "[\"crash\",1,1200]\n", 17), "as this line");
  fwrite(line, 1, needed, stdout);
}

static uint8_t awaited(const nixu_node *node, uint8_t process) {
  uint8_t processes[256];
  nixu_node moved = *node; /* a node may be moved */
  if (nixu_node_awaited(&moved, processes) != NIXU_OK) exit(1);
  return processes[process];
}

static void ask_and_reply(void) {
  uint32_t fault = 0;
  expect(nixu_node_begin_round(&nodes[1], 7, &fault) == NIXU_OK && state_of(&nodes[1]).round == 7, "a round begins");
  expect(nixu_node_question(&nodes[1], 2000, 2, &fault) == NIXU_OK, "process 2 is asked");
  kept question = parcel_of(&nodes[1]);
  expect(has(&question, QUESTION, sizeof QUESTION), "the bytes of the question");
  nixu_node_received got = receive(&nodes[2], 1500, question.at, question.length);
  expect(got.kind == NIXU_RECEIVED_QUESTION && got.source == 1 && got.parcel == sizeof ANSWER, "it replies");
  kept answer = parcel_of(&nodes[2]);
  expect(has(&answer, ANSWER, sizeof ANSWER), "the bytes of the reply");
  expect(nixu_node_question(&nodes[1], 2000, 0, &fault) == NIXU_OK, "process 0 is asked");
  question = parcel_of(&nodes[1]);
  receive(&nodes[0], 0, question.at, question.length);
  got = receive(&nodes[1], 0, ANSWER, sizeof ANSWER);
  expect(got.kind == NIXU_RECEIVED_LOG && got.source == 2, "process 1 takes a log");
  expect(awaited(&nodes[1], 0) && !awaited(&nodes[1], 1) && !awaited(&nodes[1], 2), "process 0 has still to reply");
  expect_refused(&nodes[1], ANSWER, sizeof ANSWER, NIXU_NODE_UNASKED, "a reply is taken once");
  expect(nixu_node_restart(&nodes[1], 2050, &fault) == NIXU_FAULT && fault == NIXU_NODE_WAITING, "it waits for process 0");
  expect(state_of(&nodes[1]).stage == NIXU_STAGE_GATHERING, "it gathers");
  answer = parcel_of(&nodes[0]);
  receive(&nodes[1], 0, answer.at, answer.length);
}

static void read_storage_and_restart(void) {
  static const nixu_determinant stable = {0, 0, 0, 1};
  nixu_node *node = &nodes[1];
  uint32_t fault = 0;
  expect(state_of(node).stage == NIXU_STAGE_READING, "stable storage is read last");
  expect(nixu_node_restart(node, 2050, &fault) == NIXU_FAULT && fault == NIXU_NODE_WAITING, "it waits for that");
  expect(nixu_node_stored(node, 2050, &stable, &fault) == NIXU_OK, "storage has a determinant");
  expect_line(node, "[\"stable\",1,2050,[0,0,1,0]]\n");
  expect(nixu_node_finish_read(node, 8, &fault) == NIXU_FAULT && fault == NIXU_NODE_UNASKED, "for another round");
  expect(nixu_node_finish_read(node, 7, &fault) == NIXU_OK && state_of(node).stage == NIXU_STAGE_READY, "it has been read");
  expect(nixu_node_restart(node, 2100, &fault) == NIXU_OK && state_of(node).stage == NIXU_STAGE_UP, "it is up");
  expect_line(node, "[\"restart\",1,2100,[[0,0,1,0],[1,0,2,0]]]\n");
}

/* Process 1 repeats its delivery before it takes another message. */
static void replay(void) {
  nixu_node_sent sent;
  nixu_node_message due;
  uint32_t fault = 0;
  uint8_t to = 77;
  expect(nixu_node_due(&nodes[1], &due) == NIXU_OK && due.exists && due.source == 0 && due.ssn == 0, "the first message is due");
  send_to(&nodes[0], 2110, 1, NULL, 0, &sent);
  expect_line(&nodes[0], "[\"send\",0,2110,1,1]\n");
  kept later = parcel_of(&nodes[0]);
  expect_refused(&nodes[1], later.at, later.length, NIXU_NODE_MUST_REPLAY, "another message has to wait");
  expect(nixu_node_receiver(&nodes[0], 0, &to) == NIXU_OK && to == 1, "to whom it went");
  expect(nixu_node_resend(&nodes[0], 0, &fault) == NIXU_OK, "it is sent again");
  kept again = parcel_of(&nodes[0]), line = read_all(&nodes[0], nixu_node_line);
  expect(again.length == sizeof FIRST && line.length == 0, "with no line");
  receive(&nodes[1], 2200, again.at, again.length);
  expect_line(&nodes[1], "[\"deliver\",1,2200,0,0,0,0,[[0,0,1,0]]]\n");
  expect_refused(&nodes[1], again.at, again.length, NIXU_NODE_DUPLICATE, "it is delivered once");
  expect(nixu_node_due(&nodes[1], &due) == NIXU_OK && !due.exists, "none is due");
  send_to(&nodes[1], 2250, 2, NULL, 0, &sent);
  expect_line(&nodes[1], "[\"send\",1,2250,2,0]\n");
  again = parcel_of(&nodes[1]);
  expect_refused(&nodes[2], again.at, again.length, NIXU_NODE_DUPLICATE, "process 2 has had it");
  expect_refused(&nodes[2], SECOND, sizeof SECOND, NIXU_NODE_OLD_LANE, "and takes nothing of the lane that has ended");
  receive(&nodes[1], 2300, later.at, later.length);
  expect_line(&nodes[1], "[\"deliver\",1,2300,0,0,1,1,[[0,1,1,1]]]\n");
}

static void store_and_forget(void) {
  nixu_determinant open[4];
  size_t needed = 0;
  uint32_t fault = 0;
  expect(nixu_node_unstored(&nodes[1], open, 4, &needed) == NIXU_OK && needed == 2, "two are to be stored");
  expect(open[0].ssn == 1 && open[0].rsn == 1 && open[1].source == 1 && open[1].dest == 2, "these");
  expect(nixu_node_forget(&nodes[1], 2400, &fault) == NIXU_OK, "what is stable is forgotten");
  expect_line(&nodes[1], "[\"forget\",1,2400,[[0,0,1,0]]]\n");
  expect(nixu_node_forget(&nodes[1], 2500, &fault) == NIXU_OK, "then nothing is");
  expect_line(&nodes[1], "");
  nixu_node_state state = state_of(&nodes[1]);
  expect(state.clock == 2500 && state.lane == 1 && state.logged == 2 && state.sent == 1 && state.received == 2, "what it holds");
}

static void run(void) {
  for (uint8_t p = 0; p < PROCESSES; p++) open_node(&nodes[p], p, 0, 0);
  send_and_deliver();
  acknowledge();
  crash();
  open_node(&nodes[1], 1, 1, 1200);
  ask_and_reply();
  read_storage_and_restart();
  replay();
  store_and_forget();
  for (uint8_t p = 0; p < PROCESSES; p++) nixu_node_close(&nodes[p]);
}

/* ---- refusals */

static void refuse_bytes(nixu_node *node) {
  uint8_t longer[sizeof FIRST + 1] = {0}, twice[sizeof SECOND + 11];
  for (size_t length = 0; length < sizeof FIRST; length++)
    expect_refused(node, length ? FIRST : NULL, length, NIXU_WIRE_SHORT, "bytes that end too early");
  memcpy(longer, FIRST, sizeof FIRST);
  expect_refused(node, longer, sizeof longer, NIXU_WIRE_TRAILING, "bytes after the end");
  expect_changed_refused(node, FIRST, sizeof FIRST, 0, 2, NIXU_WIRE_VERSION, "another version");
  expect_changed_refused(node, FIRST, sizeof FIRST, 1, 6, NIXU_WIRE_KIND, "another kind");
  expect_changed_refused(node, FIRST, sizeof FIRST, 9, 9, NIXU_WIRE_RUN, "another run");
  expect_changed_refused(node, FIRST, sizeof FIRST, 11, 4, NIXU_WIRE_RUN, "another number of processes");
  expect_changed_refused(node, FIRST, sizeof FIRST, 13, 2, NIXU_WIRE_RUN, "another f");
  expect_changed_refused(node, FIRST, sizeof FIRST, 14, 3, NIXU_WIRE_PROCESS, "no such process");
  expect_changed_refused(node, FIRST, sizeof FIRST, 20, 64, NIXU_WIRE_CLOCK, "a clock that is too great");
  memcpy(twice, SECOND, sizeof SECOND - 4);
  memcpy(twice + sizeof SECOND - 4, SECOND + 36, 11);
  memcpy(twice + sizeof SECOND + 7, SECOND + sizeof SECOND - 4, 4);
  twice[35] = 2;
  expect_refused(node, twice, sizeof twice, NIXU_WIRE_UNSORTED, "a determinant twice");
  expect_changed_refused(node, ANSWER, sizeof ANSWER, 51, 2, NIXU_WIRE_HOLDER, "the source among the holders");
  expect_changed_refused(node, ANSWER, sizeof ANSWER, 52, 2, NIXU_WIRE_FLAG, "a flag of 2");
}

static void refuse_parcels(void) {
  nixu_node node = {0};
  open_node(&node, 1, 0, 3);
  refuse_bytes(&node);
  expect_refused(&node, SECOND, sizeof SECOND, NIXU_NODE_NOT_MINE, "a parcel for process 2");
  expect_changed_refused(&node, FIRST, sizeof FIRST, 14, 1, NIXU_NODE_OWN_PARCEL, "a parcel of its own");
  expect_refused(&node, ANSWER, sizeof ANSWER, NIXU_NODE_UP, "a reply to a process that is up");
  nixu_node_close(&node);
}

static void refuse_calls(void) {
  static const nixu_determinant down[] = {{0, 0, 1, 2}, {0, 0, 0, 1}};
  nixu_node node = {0};
  nixu_node_sent sent;
  uint32_t fault = 0;
  uint8_t to = 77, *most = calloc(1, (size_t)1 << 32);
  open_node(&node, 1, 0, 3);
  expect(nixu_node_send(&node, 0, 3, NULL, 0, &sent, &fault) == NIXU_FAULT && fault == NIXU_NODE_NO_PROCESS, "to process 3");
  expect(nixu_node_send(&node, END_OF_CLOCKS, 2, NULL, 0, &sent, &fault) == NIXU_FAULT && fault == NIXU_NODE_CLOCK, "too late");
  if (most) expect(nixu_node_send(&node, 0, 2, most, (size_t)1 << 32, &sent, &fault) == NIXU_FAULT && fault == NIXU_NODE_LONG, "too long");
  free(most);
  expect(nixu_node_begin_round(&node, 1, &fault) == NIXU_FAULT && fault == NIXU_NODE_UP, "no round while it is up");
  expect(nixu_node_question(&node, 0, 2, &fault) == NIXU_FAULT && fault == NIXU_NODE_UP, "no question");
  expect(nixu_node_take_ended(&node, 1, 2, 1, &fault) == NIXU_FAULT && fault == NIXU_NODE_UP, "no reply");
  expect(nixu_node_finish_read(&node, 1, &fault) == NIXU_FAULT && fault == NIXU_NODE_UP, "no read");
  expect(nixu_node_restart(&node, 0, &fault) == NIXU_FAULT && fault == NIXU_NODE_UP, "no restart");
  expect(nixu_node_acknowledge(&node, 0, 3, NULL, 0, &fault) == NIXU_FAULT && fault == NIXU_NODE_NO_PROCESS, "no process 3");
  expect(nixu_node_acknowledge(&node, 0, 2, down, 2, &fault) == NIXU_MISUSED, "determinants that do not ascend");
  expect(nixu_node_resend(&node, 0, &fault) == NIXU_MISUSED && nixu_node_receiver(&node, 0, &to) == NIXU_MISUSED, "no message");
  expect(state_of(&node).clock == 3 && to == 77, "nothing has changed");
  for (uint32_t ssn = 0; ssn < MOST_SENDS; ssn++) send_to(&node, 0, 2, NULL, 0, &sent);
  expect(nixu_node_send(&node, 0, 2, NULL, 0, &sent, &fault) == NIXU_FAULT && fault == NIXU_NODE_FULL, "and no more");
  nixu_node_close(&node);
}

static void refuse_while_down(void) {
  static const nixu_determinant later = {5, 3, 0, 1};
  nixu_node node = {0};
  nixu_node_sent sent;
  uint32_t fault = 0;
  open_node(&node, 1, 1, 3);
  expect_refused(&node, FIRST, sizeof FIRST, NIXU_NODE_NOT_UP, "a message to a process that is not up");
  expect(nixu_node_send(&node, 0, 2, NULL, 0, &sent, &fault) == NIXU_FAULT && fault == NIXU_NODE_NOT_UP, "nor does it send");
  expect(nixu_node_forget(&node, 0, &fault) == NIXU_FAULT && fault == NIXU_NODE_NOT_UP, "nor forget");
  expect(nixu_node_acknowledge(&node, 0, 2, NULL, 0, &fault) == NIXU_FAULT && fault == NIXU_NODE_NOT_UP, "nor acknowledge");
  expect(nixu_node_question(&node, 0, 2, &fault) == NIXU_FAULT && fault == NIXU_NODE_NO_ROUND, "nor ask without a round");
  expect(nixu_node_restart(&node, 0, &fault) == NIXU_FAULT && fault == NIXU_NODE_NO_ROUND, "nor restart");
  expect(nixu_node_stored(&node, 0, &later, &fault) == NIXU_FAULT && fault == NIXU_NODE_NO_ROUND, "nor read");
  expect_refused(&node, ANSWER, sizeof ANSWER, NIXU_NODE_UNASKED, "no reply was awaited");
  expect(state_of(&node).stage == NIXU_STAGE_DOWN && nixu_node_begin_round(&node, 9, &fault) == NIXU_OK, "a round begins");
  expect(nixu_node_question(&node, 0, 1, &fault) == NIXU_FAULT && fault == NIXU_NODE_NO_PROCESS, "it does not ask itself");
  expect(nixu_node_stored(&node, 0, &later, &fault) == NIXU_FAULT && fault == NIXU_NODE_WAITING, "storage is read last");
  expect(nixu_node_finish_read(&node, 9, &fault) == NIXU_FAULT && fault == NIXU_NODE_WAITING, "after all replies");
  expect(nixu_node_take_ended(&node, 8, 0, 0, &fault) == NIXU_FAULT && fault == NIXU_NODE_UNASKED, "to this round");
  expect(nixu_node_take_ended(&node, 9, 0, 0, &fault) == NIXU_OK, "process 0 has ended");
  expect(nixu_node_take_ended(&node, 9, 2, 0, &fault) == NIXU_OK, "and process 2");
  expect(nixu_node_stored(&node, 0, &later, &fault) == NIXU_OK && nixu_node_finish_read(&node, 9, &fault) == NIXU_OK, "it is read");
  expect(nixu_node_restart(&node, 0, &fault) == NIXU_OK, "it restarts");
  expect_changed_refused(&node, FIRST, sizeof FIRST, 31, 5, NIXU_NODE_RESERVED, "message 5 is the fourth delivery");
  nixu_node_close(&node);
}

static int has_view(nixu_node *node, uint32_t zero, uint32_t one, uint32_t two) {
  uint32_t view[PROCESSES] = {77, 77, 77};
  size_t needed = 0;
  if (nixu_node_view(node, view, 1, &needed) != NIXU_OK || needed != PROCESSES || view[1] != 77) return 0;
  if (nixu_node_view(node, view, PROCESSES, &needed) != NIXU_OK) return 0;
  return view[0] == zero && view[1] == one && view[2] == two;
}

/* Processes 0 and 1 recover at once: 0 goes before 1, which has to know its lane first. */
static void refuse_the_second(void) {
  nixu_node zero = {0}, one = {0};
  uint32_t fault = 0;
  open_node(&zero, 0, 1, 3);
  open_node(&one, 1, 1, 3);
  nixu_node_begin_round(&zero, 7, &fault);
  nixu_node_begin_round(&one, 7, &fault);
  nixu_node_question(&one, 0, 0, &fault);
  kept question = parcel_of(&one);
  expect(has_view(&one, 0, 1, 0), "it knows its own lane alone");
  expect(receive(&zero, 0, question.at, question.length).kind == NIXU_RECEIVED_QUESTION, "the view has a wrong number");
  kept reply = parcel_of(&zero);
  expect(receive(&one, 0, reply.at, reply.length).kind == NIXU_RECEIVED_NUMBER, "which is the reply");
  expect(state_of(&one).stage == NIXU_STAGE_DOWN, "the round is given up");
  expect(has_view(&one, 1, 1, 0), "it knows the lane of process 0");
  nixu_node_begin_round(&one, 8, &fault);
  nixu_node_question(&one, 0, 0, &fault);
  question = parcel_of(&one);
  expect_refused(&zero, question.at, question.length, NIXU_NODE_NOT_YET, "process 0 goes first");
  nixu_node_begin_round(&zero, 8, &fault);
  nixu_node_take_ended(&zero, 8, 1, 1, &fault);
  expect(state_of(&zero).stage == NIXU_STAGE_DOWN, "another lane than the view's gives up the round");
  nixu_node_begin_round(&zero, 9, &fault);
  nixu_node_question(&zero, 0, 1, &fault);
  question = parcel_of(&zero);
  receive(&one, 0, question.at, question.length);
  reply = parcel_of(&one);
  expect(receive(&zero, 0, reply.at, reply.length).kind == NIXU_RECEIVED_NOT_UP, "process 1 is not up");
  expect(!awaited(&zero, 1) && awaited(&zero, 2), "which is its reply");
  nixu_node_close(&zero);
  nixu_node_close(&one);
}

/* ---- handles */

static void expect_closed(nixu_node *node) {
  static const nixu_determinant det = {0, 0, 0, 1};
  nixu_node_sent sent;
  nixu_node_received got;
  nixu_node_message due;
  nixu_node_state state;
  uint8_t processes[256], to = 77;
  size_t needed = 77;
  uint32_t fault = 77;
  memset(&got, 0xa5, sizeof got);
  int closed = nixu_node_send(node, 0, 1, NULL, 0, &sent, &fault) == NIXU_CLOSED;
  closed &= nixu_node_receive(node, 0, FIRST, sizeof FIRST, &got, &fault) == NIXU_CLOSED && nixu_node_due(node, &due) == NIXU_CLOSED;
  closed &= nixu_node_receiver(node, 0, &to) == NIXU_CLOSED && nixu_node_resend(node, 0, &fault) == NIXU_CLOSED;
  closed &= nixu_node_acknowledge(node, 0, 1, NULL, 0, &fault) == NIXU_CLOSED && nixu_node_line(node, NULL, 0, &needed) == NIXU_CLOSED;
  closed &= nixu_node_parcel(node, NULL, 0, &needed) == NIXU_CLOSED && nixu_node_body(node, NULL, 0, &needed) == NIXU_CLOSED;
  closed &= nixu_node_listed(node, NULL, 0, &needed) == NIXU_CLOSED && nixu_node_unstored(node, NULL, 0, &needed) == NIXU_CLOSED;
  closed &= nixu_node_stored(node, 0, &det, &fault) == NIXU_CLOSED && nixu_node_forget(node, 0, &fault) == NIXU_CLOSED;
  closed &= nixu_node_begin_round(node, 1, &fault) == NIXU_CLOSED && nixu_node_question(node, 0, 1, &fault) == NIXU_CLOSED;
  closed &= nixu_node_awaited(node, processes) == NIXU_CLOSED && nixu_node_take_ended(node, 1, 1, 1, &fault) == NIXU_CLOSED;
  closed &= nixu_node_view(node, NULL, 0, &needed) == NIXU_CLOSED;
  closed &= nixu_node_finish_read(node, 1, &fault) == NIXU_CLOSED && nixu_node_restart(node, 0, &fault) == NIXU_CLOSED;
  closed &= nixu_node_header(node, NULL, 0, &needed) == NIXU_CLOSED && nixu_node_inspect(node, &state) == NIXU_CLOSED;
  nixu_node_close(node);
  expect(closed, "each call finds no node");
  expect(fault == 77 && needed == 77 && to == 77 && got.source == 0xa5 && !node->held && !node->full, "nothing was written then");
}

static void try_handle(void) {
  nixu_node_identity identity = {RUN, 0, 0, 0, PROCESSES, 1, 3};
  nixu_node node = {0};
  uint32_t fault = 0;
  expect_closed(&node);
  expect(nixu_node_open(&node, &identity, &fault) == NIXU_FAULT && fault == NIXU_NODE_NO_PROCESS, "there is no process 3");
  identity.processes = 257;
  expect(nixu_node_open(&node, &identity, &fault) == NIXU_FAULT && fault == NIXU_NODE_NO_PROCESS, "nor 257 processes");
  identity.clock = END_OF_CLOCKS;
  expect(nixu_node_open(&node, &identity, &fault) == NIXU_FAULT && fault == NIXU_NODE_CLOCK, "nor such a clock");
  expect_closed(&node);
  identity.clock = 0;
  identity.processes = 256;
  expect(nixu_node_open(&node, &identity, &fault) == NIXU_OK && nixu_node_open(&node, &identity, &fault) == NIXU_MISUSED, "it opens once");
  nixu_node_close(&node);
  expect_closed(&node);
}

static void try_sentences(void) {
  uint8_t out[ROOM];
  size_t needed = 0;
  for (uint32_t number = 0; number < 100; number++) {
    int is_one = (number >= NIXU_WIRE_SHORT && number <= NIXU_WIRE_TRAILING) || (number >= NIXU_NODE_NOT_MINE && number <= NIXU_NODE_FULL);
    needed = 77;
    expect(nixu_node_fault_text(number, out, ROOM, &needed) == (is_one ? NIXU_OK : NIXU_MISUSED), "a refusal has a sentence");
    expect(is_one ? needed > 10 && needed < 80 : needed == 77, "of some length");
  }
  nixu_node_fault_text(NIXU_NODE_DUPLICATE, out, ROOM, &needed);
  expect(needed == 30 && !memcmp(out, "the message has been delivered", 30), "this one");
}

int main(void) {
  FILE *lines = stdout;
  run();
  fflush(lines);
  if (!freopen("/dev/null", "w", stdout)) return 1;
  refuse_parcels();
  refuse_calls();
  refuse_while_down();
  refuse_the_second();
  try_handle();
  try_sentences();
  return wrong != 0;
}
