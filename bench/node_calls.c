/* Times the calls of a node. Process 2 receives messages of process 0 with a body of 100 bytes, which carry `carried` determinants
   that are new to it; after each 64 it stores and forgets, which is not timed. Prints nanoseconds of processor time for each: the
   copying of a parcel, nixu_node_receive, nixu_node_line, and nixu_node_send of a message that carries as many. The parcels go to a
   file, each after its length, for node_plain.rs.

   node_calls CARRIED FILE

   Or process 2 receives so many messages that carry nothing, and neither sends nor stores, so that all their determinants stay
   open. Prints nanoseconds for each nixu_node_receive, for the first nixu_node_send after them, and for each pair of a receive and
   a send after that, whose message carries all.

   node_calls open COUNT

   Or process 2 receives so many messages whose numbers are so far apart, and stores and forgets after each 64. Prints the bytes of
   heap that it takes for each: what it keeps of a name.

   node_calls names APART COUNT

   Or process 2 receives a message that carries so many determinants: `whole`, or wrong at its end, so that it is read as far as one
   can: `cut` lacks the last byte, `unsorted` has the last determinant twice, `trailing` has a byte more, and `count` claims four
   thousand million determinants. Prints its length, and the nanoseconds of nixu_node_receive.

   node_calls hostile KIND COUNT */
#define _POSIX_C_SOURCE 200809L
#include "nixu.h"

#include <malloc.h>
#include <stdio.h>
#include <stdlib.h>
#include <string.h>
#include <time.h>

enum { SSN = 28, BODY = 100, ROOM = 4096, MESSAGES = 2048, EACH = 64, RUNS = 20, MOST = 2048 };

typedef struct parcel {
  uint8_t at[ROOM];
  size_t length;
} parcel;

static parcel made[MESSAGES];
static uint64_t now = 1000;
static uint32_t fault;
static const uint8_t body[BODY];

static void must(uint32_t status) {
  if (status == NIXU_OK) return;
  fprintf(stderr, "a call has the status %u\n", (unsigned)status);
  exit(1);
}

static double nanoseconds(void) {
  struct timespec at;
  clock_gettime(CLOCK_THREAD_CPUTIME_ID, &at);
  return (double)at.tv_sec * 1e9 + (double)at.tv_nsec;
}

static void open_node(nixu_node *node, uint8_t process) {
  nixu_node_identity identity = {1, 0, 99, 0, 4, 1, process};
  must(nixu_node_open(node, &identity, &fault));
}

static void store_and_forget(nixu_node *node) {
  static nixu_determinant open[MOST];
  size_t count;
  must(nixu_node_unstored(node, open, MOST, &count));
  for (size_t k = 0; k < count; k++) must(nixu_node_stored(node, now++, &open[k], &fault));
  must(nixu_node_forget(node, now++, &fault));
}

static void send(nixu_node *from, uint8_t to, parcel *made_of) {
  nixu_node_sent sent;
  must(nixu_node_send(from, now++, to, body, BODY, &sent, &fault));
  must(nixu_node_parcel(from, made_of->at, ROOM, &made_of->length));
}

static void receive(nixu_node *to, const parcel *from) {
  nixu_node_received received;
  must(nixu_node_receive(to, now++, from->at, from->length, &received, &fault));
}

/* Process 0 delivers `carried` messages of process 1. */
static void deliver_some(nixu_node *one, nixu_node *zero, uint32_t carried) {
  static parcel given;
  for (uint32_t k = 0; k < carried; k++) {
    send(one, 0, &given);
    receive(zero, &given);
  }
}

/* It does so before each message to process 2, and then forgets them. */
static void make_parcels(uint32_t carried) {
  nixu_node zero = {0}, one = {0};
  open_node(&zero, 0);
  open_node(&one, 1);
  for (int i = 0; i < MESSAGES; i++) {
    deliver_some(&one, &zero, carried);
    send(&zero, 2, &made[i]);
    store_and_forget(&zero);
  }
  nixu_node_close(&zero);
  nixu_node_close(&one);
}

static double least_of(double least, double began, int count) {
  double took = (nanoseconds() - began) / count;
  return took < least ? took : least;
}

static double copies(void) {
  static uint8_t copy[ROOM];
  double least = 1e9;
  for (int i = 0; i < MESSAGES; i += EACH) {
    double began = nanoseconds();
    for (int j = i; j < i + EACH; j++) {
      memcpy(copy, made[j].at, made[j].length);
      __asm__ volatile("" ::"r"(copy) : "memory");
    }
    least = least_of(least, began, EACH);
  }
  return least;
}

static double lines(nixu_node *node) {
  static uint8_t line[ROOM];
  size_t length;
  double began = nanoseconds();
  for (int k = 0; k < EACH; k++) must(nixu_node_line(node, line, ROOM, &length));
  return least_of(1e9, began, EACH);
}

static double sends(uint32_t carried) {
  static parcel given;
  double least = 1e9;
  nixu_node zero = {0}, one = {0};
  open_node(&zero, 0);
  open_node(&one, 1);
  deliver_some(&one, &zero, carried);
  for (int i = 0; i < MESSAGES; i += EACH) {
    double began = nanoseconds();
    for (int k = 0; k < EACH; k++) send(&zero, 2, &given);
    least = least_of(least, began, EACH);
  }
  nixu_node_close(&zero);
  nixu_node_close(&one);
  return least;
}

/* One run over all parcels. Returns the mean time of a delivery. */
static double deliveries(double *line) {
  double all = 0;
  nixu_node two = {0};
  open_node(&two, 2);
  for (int i = 0; i < MESSAGES; i += EACH) {
    double began = nanoseconds();
    for (int j = i; j < i + EACH; j++) receive(&two, &made[j]);
    all += nanoseconds() - began;
    *line = lines(&two);
    store_and_forget(&two);
  }
  nixu_node_close(&two);
  return all / MESSAGES;
}

/* Process 0 sends as many messages to process 2 as it is told, and 16 more. */
static int open_deliveries(int count) {
  enum { PAIRS = 16 };
  static parcel given;
  double all = 0, began, first;
  nixu_node zero = {0}, two = {0};
  nixu_node_sent sent;
  open_node(&zero, 0);
  open_node(&two, 2);
  for (int i = 0; i < count; i++) {
    send(&zero, 2, &given);
    began = nanoseconds();
    receive(&two, &given);
    all += nanoseconds() - began;
  }
  began = nanoseconds();
  must(nixu_node_send(&two, now++, 3, body, BODY, &sent, &fault));
  first = nanoseconds() - began;
  began = nanoseconds();
  for (int i = 0; i < PAIRS; i++) {
    send(&zero, 2, &given);
    receive(&two, &given);
    must(nixu_node_send(&two, now++, 3, body, BODY, &sent, &fault));
  }
  printf("%.0f %.0f %.0f\n", all / count, first, (nanoseconds() - began) / PAIRS);
  nixu_node_close(&zero);
  nixu_node_close(&two);
  return 0;
}

static size_t heap(void) {
  struct mallinfo2 all = mallinfo2();
  return all.uordblks + all.hblkhd;
}

static int names(uint32_t apart, uint32_t count) {
  static parcel given;
  nixu_node zero = {0}, two = {0};
  open_node(&zero, 0);
  open_node(&two, 2);
  send(&zero, 2, &given);
  for (uint32_t i = 0; i < count; i++) {
    for (int k = 0; k < 4; k++) given.at[SSN + k] = (uint8_t)(i * apart >> (24 - 8 * k));
    receive(&two, &given);
    if (i % EACH == EACH - 1) store_and_forget(&two);
  }
  size_t whole = heap();
  nixu_node_close(&two);
  printf("%.1f\n", (double)(whole - heap()) / count);
  nixu_node_close(&zero);
  return 0;
}

static uint8_t *number(uint8_t *at, uint32_t value) {
  for (int k = 0; k < 4; k++) at[k] = (uint8_t)(value >> (24 - 8 * k));
  return at + 4;
}

/* A determinant of a delivery of process 0, with no other holder. */
static uint8_t *determinant(uint8_t *at, uint32_t value) {
  *at++ = 1;
  at = number(at, value);
  *at++ = 0;
  at = number(at, value);
  *at++ = 0;
  return at;
}

/* The message to process 2 whose head is that of another. */
static size_t make_long(uint8_t *at, const parcel *other, const char *kind, uint32_t count) {
  uint8_t *end = at + SSN;
  memcpy(at, other->at, SSN);
  end = number(end, 0);
  end = number(end, strcmp(kind, "count") ? count : UINT32_MAX);
  for (uint32_t k = 0; k < count; k++) end = determinant(end, k + 1 == count && !strcmp(kind, "unsorted") ? k - 1 : k);
  end = number(end, BODY);
  memset(end, 0, BODY + 1);
  end += BODY + !strcmp(kind, "trailing") - !strcmp(kind, "cut");
  return (size_t)(end - at);
}

static int hostile(const char *kind, uint32_t count) {
  static parcel given;
  uint8_t *bytes = malloc(64 + BODY + 11 * (size_t)count);
  double least = 1e12;
  size_t length = 0;
  if (!bytes) return 1;
  for (int run = 0; run < RUNS; run++) {
    nixu_node zero = {0}, two = {0};
    nixu_node_received received;
    open_node(&zero, 0);
    open_node(&two, 2);
    send(&zero, 2, &given);
    length = make_long(bytes, &given, kind, count);
    double began = nanoseconds();
    uint32_t status = nixu_node_receive(&two, now++, bytes, length, &received, &fault);
    least = least_of(least, began, 1);
    if ((status == NIXU_OK) != !strcmp(kind, "whole")) must(status ? status : UINT32_MAX);
    nixu_node_close(&zero);
    nixu_node_close(&two);
  }
  free(bytes);
  printf("%lu %.0f\n", (unsigned long)length, least);
  return 0;
}

int main(int count, char **words) {
  FILE *file;
  if (count == 4 && !strcmp(words[1], "hostile")) return hostile(words[2], (uint32_t)atoi(words[3]));
  if (count == 4 && !strcmp(words[1], "names")) return names((uint32_t)atoi(words[2]), (uint32_t)atoi(words[3]));
  if (count == 3 && !strcmp(words[1], "open")) return open_deliveries(atoi(words[2]));
  uint32_t carried = count > 1 ? (uint32_t)atoi(words[1]) : 0;
  double copy = 1e9, delivery = 1e9, line = 1e9;
  if (count != 3 || !(file = fopen(words[2], "wb"))) return 1;
  make_parcels(carried);
  for (int i = 0; i < MESSAGES; i++) {
    uint32_t length = (uint32_t)made[i].length;
    fwrite(&length, sizeof length, 1, file);
    fwrite(made[i].at, 1, made[i].length, file);
  }
  if (fclose(file)) return 1;
  for (int run = 0; run < RUNS; run++) {
    double of_line, mean = deliveries(&of_line), of_copy = copies();
    if (mean < delivery) delivery = mean;
    if (of_line < line) line = of_line;
    if (of_copy < copy) copy = of_copy;
  }
  printf("%lu %.0f %.0f %.0f %.0f\n", (unsigned long)made[0].length, copy, delivery, line, sends(carried));
  return 0;
}
