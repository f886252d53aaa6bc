/* Measures how much stack the calls need: each runs on a thread of its own, whose stack is painted before and looked at after. Prints
   the most, in bytes, and fails where that is more than NIXU_STACK. The first word is a file with the text of a trace. */
#define _POSIX_C_SOURCE 200809L
#include "text.h"

#include <pthread.h>
#include <stdio.h>
#include <stdlib.h>
#include <string.h>

enum { SIZE = 8 << 20, ROOM = 1 << 18, PAINT = 0xa5, DEEP = 200 };

/* The statuses of all calls on a text, in turn; the first that no text may have ends the program. */
static void *call_all(void *given) {
  static uint8_t out[ROOM];
  bytes text = *(bytes *)given;
  uint16_t faults[3] = {0, 1, 2};
  nixu_verdict told[3];
  size_t needed;
  nixu_reader reader = {0};
  nixu_trace trace = {0};
  nixu_entry crash = {NIXU_CRASH, 0, 0, 0, 0, 0, 0};
  nixu_entry restart = {NIXU_RESTART, 0, 0, 0, 0, 0, 0};
  uint32_t fault;
  int wrong = nixu_audit(text.at, text.length, 1, told) > NIXU_FAULT;
  wrong |= nixu_audit_each(text.at, text.length, faults, 3, told, 3) > NIXU_FAULT;
  wrong |= nixu_line(text.at, text.length, 1, out, ROOM, &needed) > NIXU_FAULT;
  wrong |= nixu_explain(text.at, text.length, 1, out, ROOM, &needed) > NIXU_FAULT;
  wrong |= nixu_draw(text.at, text.length, 1, out, ROOM, &needed) > NIXU_FAULT;
  wrong |= nixu_fault_text(NIXU_SYNTAX, out, ROOM, &needed) != NIXU_OK;
  wrong |= nixu_reader_open(&reader) != NIXU_OK;
  if (nixu_reader_feed(&reader, text.at, text.length, told) == NIXU_OK)
    wrong |= nixu_reader_finish(&reader, faults, 3, told, 3) > NIXU_FAULT;
  nixu_reader_close(&reader);
  wrong |= nixu_trace_open(&trace, 256) != NIXU_OK;
  wrong |= nixu_trace_push(&trace, &crash, NULL, 0, &fault) != NIXU_OK;
  wrong |= nixu_trace_push(&trace, &restart, NULL, 0, &fault) != NIXU_OK;
  wrong |= nixu_trace_audit(&trace, 1, told) != NIXU_OK;
  wrong |= nixu_trace_text(&trace, out, ROOM, &needed) != NIXU_OK;
  nixu_trace_close(&trace);
  if (wrong) {
    fprintf(stderr, "a call has another status\n");
    exit(1);
  }
  return NULL;
}

/* The calls of two nodes, of which one recovers. */
static void *call_nodes(void *given) {
  static uint8_t out[ROOM];
  const nixu_node_identity zero = {1, 0, 2, 0, 2, 1, 0}, one = {1, 9, 2, 1, 2, 1, 1};
  nixu_determinant dets[4];
  nixu_node up = {0}, down = {0};
  nixu_node_sent sent;
  nixu_node_received received;
  uint32_t fault;
  size_t length;
  int wrong = nixu_node_open(&up, &zero, &fault) != NIXU_OK || nixu_node_open(&down, &one, &fault) != NIXU_OK;
  wrong |= nixu_node_begin_round(&down, 1, &fault) != NIXU_OK || nixu_node_question(&down, 1, 0, &fault) != NIXU_OK;
  wrong |= nixu_node_parcel(&down, out, ROOM, &length) != NIXU_OK;
  wrong |= nixu_node_receive(&up, 1, out, length, &received, &fault) != NIXU_OK;
  wrong |= nixu_node_parcel(&up, out, ROOM, &length) != NIXU_OK;
  wrong |= nixu_node_receive(&down, 1, out, length, &received, &fault) != NIXU_OK;
  wrong |= nixu_node_finish_read(&down, 1, &fault) != NIXU_OK || nixu_node_restart(&down, 1, &fault) != NIXU_OK;
  wrong |= nixu_node_send(&up, 1, 1, out, 100, &sent, &fault) != NIXU_OK;
  wrong |= nixu_node_parcel(&up, out, ROOM, &length) != NIXU_OK;
  wrong |= nixu_node_receive(&down, 1, out, length, &received, &fault) != NIXU_OK;
  wrong |= nixu_node_line(&down, out, ROOM, &length) != NIXU_OK || nixu_node_listed(&down, dets, 4, &length) != NIXU_OK;
  wrong |= nixu_node_acknowledge(&down, 1, 0, dets, length, &fault) != NIXU_OK;
  wrong |= nixu_node_stored(&down, 1, dets, &fault) != NIXU_OK || nixu_node_forget(&down, 1, &fault) != NIXU_OK;
  nixu_node_close(&up);
  nixu_node_close(&down);
  if (wrong || !given) {
    fprintf(stderr, "a call of a node has another status\n");
    exit(1);
  }
  return NULL;
}

/* A call that needs nothing: what a thread needs by itself. */
static void *call_none(void *given) {
  (void)given;
  nixu_version();
  return NULL;
}

/* How many bytes of its stack a thread has used. A stack grows down. */
static size_t used_by(void *(*run)(void *), bytes text) {
  pthread_attr_t words;
  pthread_t thread;
  size_t unused = 0;
  void *stack;
  if (posix_memalign(&stack, 1 << 16, SIZE)) exit(1);
  memset(stack, PAINT, SIZE);
  if (pthread_attr_init(&words) || pthread_attr_setstack(&words, stack, SIZE)) exit(1);
  if (pthread_create(&thread, &words, run, &text) || pthread_join(thread, NULL)) exit(1);
  pthread_attr_destroy(&words);
  while (unused < SIZE && ((uint8_t *)stack)[unused] == PAINT) unused++;
  free(stack);
  return SIZE - unused;
}

/* A line of brackets within brackets, deeper than a JSON value may be: the reading of a value calls itself for each. */
static bytes nested(void) {
  static uint8_t text[2 * DEEP];
  bytes made;
  made.at = text;
  made.length = sizeof text;
  memset(text, '[', DEEP);
  memset(text + DEEP, ']', DEEP);
  return made;
}

int main(int count, char **words) {
  bytes none = {NULL, 0}, text;
  size_t idle, of_text, of_nested, of_nodes, most;
  if (count != 2 || !(text = read_file(words[1])).at) return 1;
  idle = used_by(call_none, none);
  of_text = used_by(call_all, text) - idle;
  of_nested = used_by(call_all, nested()) - idle;
  of_nodes = used_by(call_nodes, text) - idle;
  most = of_text > of_nested ? of_text : of_nested;
  if (of_nodes > most) most = of_nodes;
  printf("%lu bytes of stack at most, %lu for a plain text, %lu for nodes\n", (unsigned long)most, (unsigned long)of_text,
         (unsigned long)of_nodes);
  free(text.at);
  return most > NIXU_STACK;
}
