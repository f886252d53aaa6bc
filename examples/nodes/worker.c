/* The worker of the service in C: over the text protocol of NATS, with the node of libnixu.a. It has the rules of process.py.
   usage: worker PROCESS PROCESSES FAULTS RUN PORT,PORT.. RECORDING */
#define _GNU_SOURCE /* memmem */
#include <arpa/inet.h>
#include <errno.h>
#include <fcntl.h>
#include <inttypes.h>
#include <netinet/tcp.h>
#include <poll.h>
#include <signal.h>
#include <stdio.h>
#include <stdlib.h>
#include <string.h>
#include <sys/file.h>
#include <sys/random.h>
#include <sys/socket.h>
#include <time.h>
#include <unistd.h>
#include "nixu.h"

enum { ROOM = 1 << 21, MOST_WAITING = 4096, PATIENCE = 200, MOST_JOBS = 4096, MOST_STORED = 4096, STORE_EACH = 8 };

static nixu_node node;
static uint32_t fault;
static int me, processes, recording, connection = -1;
static const char *ports;
static uint64_t run, round_name;
static uint8_t buffer[ROOM], out[ROOM]; /* what has come of the server; what a call returns */
static size_t length;

static void fail(const char *what) {
  perror(what);
  exit(1);
}

static uint64_t now(void) {
  struct timespec at;
  clock_gettime(CLOCK_REALTIME, &at);
  return (uint64_t)at.tv_sec * 1000000 + (uint64_t)at.tv_nsec / 1000;
}

static void must(uint32_t status) {
  if (status != NIXU_OK) fprintf(stderr, "status %u, fault %u\n", (unsigned)status, (unsigned)fault), exit(1);
}

static nixu_node_state state(void) {
  nixu_node_state it;
  must(nixu_node_inspect(&node, &it));
  return it;
}

/* ---- the recording: one write for each line, before anything that follows from it leaves the process ---- */

static void record(const void *line, size_t count) {
  if (write(recording, line, count) != (ssize_t)count) fail("recording");
}

static void record_line(void) {
  size_t needed;
  must(nixu_node_line(&node, out, sizeof out, &needed));
  record(out, needed);
}

/* A whole line has as many opening as closing brackets; one that a kill has cut has not. */
static int is_whole(const char *line) {
  int open = 0, seen = 0;
  for (; *line; line++) open += (*line == '[') - (*line == ']'), seen |= *line == '[';
  return seen && open == 0;
}

/* Reads back the greatest clock and the number of restarts; the lane is 0 if there is no recording. */
static void read_back(const char *path, nixu_node_identity *it) {
  static char line[ROOM];
  char word[16];
  uint64_t clock;
  int began = 0, restarts = 0;
  FILE *file = fopen(path, "r");
  while (file && fgets(line, sizeof line, file)) {
    if (!is_whole(line) || sscanf(line, "[\"%15[a-z]\",%*u,%" SCNu64, word, &clock) != 2) continue;
    began = 1;
    if (!strcmp(word, "recording")) continue;
    restarts += !strcmp(word, "restart");
    if (clock > it->clock) it->clock = clock;
  }
  if (file) fclose(file);
  it->lane = began ? (uint32_t)restarts + 1 : 0;
}

/* ---- the connection ---- */

static void transmit(const void *bytes, size_t count) {
  const char *at = bytes;
  for (ssize_t sent; count && (sent = send(connection, at, count, MSG_NOSIGNAL)) > 0; count -= (size_t)sent) at += sent;
}

/* Sends to a process of the run, or to its storage. If the connection has ended it is lost, as under way. */
static void publish(const char *to, const void *data, size_t count) {
  static char text[ROOM];
  int head = snprintf(text, 256, "PUB %" PRIu64 ".%s %zu\r\n", run, to, count);
  if ((size_t)head + count + 2 > sizeof text) return;
  memcpy(text + head, data, count), memcpy(text + head + count, "\r\n", 2);
  transmit(text, (size_t)head + count + 2);
}

static void publish_parcel(int to) {
  size_t needed;
  char name[8];
  must(nixu_node_parcel(&node, out, sizeof out, &needed));
  snprintf(name, sizeof name, "%d", to);
  publish(name, out, needed);
}

static int open_port(int port) {
  struct sockaddr_in at = {.sin_family = AF_INET, .sin_port = htons((uint16_t)port), .sin_addr.s_addr = htonl(INADDR_LOOPBACK)};
  int one = 1, it = socket(AF_INET, SOCK_STREAM, 0);
  if (it >= 0 && connect(it, (void *)&at, sizeof at)) close(it), it = -1;
  if (it >= 0) setsockopt(it, IPPROTO_TCP, TCP_NODELAY, &one, sizeof one);
  return it;
}

static int fill(void) {
  ssize_t count = recv(connection, buffer + length, sizeof buffer - 1 - length, 0);
  if (count > 0) length += (size_t)count, buffer[length] = 0;
  return count > 0 || (count < 0 && errno == EINTR);
}

/* Joins some server, says hello to all, and returns once the server has taken the subscriptions. */
static void join(void) {
  char text[256], name[8];
  static int tried;
  unsigned long long of = run;
  for (char *pong = NULL; !pong; tried++) {
    const char *port = ports;
    for (int k = tried % 3; k > 0 && strchr(port, ','); k--) port = strchr(port, ',') + 1;
    if (connection >= 0) close(connection);
    if ((connection = open_port(atoi(port))) < 0) {
      nanosleep(&(struct timespec){0, 20000000}, NULL);
      continue;
    }
    const char *words = "CONNECT {\"verbose\":false}\r\nSUB %llu.%d mine\r\nSUB %llu.%d.store store\r\nSUB %llu.all all\r\nPING\r\n";
    int count = snprintf(text, sizeof text, words, of, me, of, me, of);
    length = 0;
    transmit(text, (size_t)count);
    while (!(pong = memmem(buffer, length, "PONG\r\n", 6)) && fill()) {}
    if (pong) length -= (size_t)((uint8_t *)pong + 6 - buffer), memmove(buffer, pong + 6, length + 1);
  }
  publish("all", name, (size_t)snprintf(name, sizeof name, "%d", me));
}

/* SIGUSR1 cuts the connection, so that a trial can. */
static void cut(int number) {
  (void)number;
  shutdown(connection, SHUT_RDWR);
}

/* ---- storage: 'store these', and 'stored' once the commit is confirmed ---- */

static nixu_determinant requested[MOST_STORED];
static size_t requested_count;
static unsigned requests, delivered;
static int is_requested;

static void send_store_request(void) {
  static char text[64 + 48 * MOST_STORED];
  nixu_node_state it = state();
  size_t count = (size_t)snprintf(text, 128, "store %d %u %u %" PRIu64, me, (unsigned)it.lane, requests, it.clock);
  for (size_t i = 0; i < requested_count; i++) {
    const nixu_determinant *det = requested + i;
    count += (size_t)snprintf(text + count, 48, "\n%u %u %u %u", det->source, (unsigned)det->ssn, det->dest, (unsigned)det->rsn);
  }
  publish("store", text, count);
}

/* One request at a time. */
static void store(void) {
  if (is_requested || delivered < STORE_EACH) return;
  must(nixu_node_unstored(&node, requested, MOST_STORED, &requested_count));
  if (requested_count > MOST_STORED) requested_count = MOST_STORED; /* the others are in the next one */
  is_requested = 1, requests++, delivered = 0;
  send_store_request();
}

static void take_stored(const char *text) {
  unsigned lane, count;
  if (sscanf(text, "stored %u %u", &lane, &count) != 2 || lane != state().lane || count != requests || !is_requested) return;
  for (size_t i = 0; i < requested_count; i++) must(nixu_node_stored(&node, now(), requested + i, &fault)), record_line();
  must(nixu_node_forget(&node, now(), &fault));
  record_line();
  is_requested = 0;
}

/* ---- the worker's role: a function of what it has received, in that order ---- */

static int done[MOST_JOBS], done_count;

static void act(const char *body) {
  nixu_node_sent sent;
  char text[64];
  int job, amount;
  if (sscanf(body, "job %d %d", &job, &amount) != 2 || done_count == MOST_JOBS) exit(1);
  done[done_count++] = job;
  int count = snprintf(text, sizeof text, "entry %d %d %d", job, amount, done_count);
  must(nixu_node_send(&node, now(), (uint8_t)(processes - 1), (uint8_t *)text, (size_t)count, &sent, &fault));
  record_line();
  publish_parcel(processes - 1);
}

static void show_book(void) {
  printf("book {\"done\":[");
  for (int i = 0; i < done_count; i++) printf(i ? ",%d" : "%d", done[i]);
  printf("]}\n"), fflush(stdout);
}

/* ---- parcels ---- */

/* Parcels that may be received later. */
static struct { uint8_t *bytes; size_t length; } waiting[MOST_WAITING];
static size_t waiting_count;

/* Whether two parcels have one name: kind, source, and of messages the number (docs/WIRE.md). */
static int same_name(const uint8_t *one, const uint8_t *other) {
  return one[1] == other[1] && one[14] == other[14] && (one[1] != 0 || !memcmp(one + 28, other + 28, 4));
}

/* Keeps a parcel; of two with one name that of the later lane. */
static void keep(const uint8_t *bytes, size_t count) {
  size_t at = 0;
  while (at < waiting_count && !same_name(waiting[at].bytes, bytes)) at++;
  if (at == MOST_WAITING) return;
  if (at < waiting_count && memcmp(waiting[at].bytes + 16, bytes + 16, 4) > 0) return;
  if (at == waiting_count) waiting[waiting_count++].bytes = NULL;
  if (!(waiting[at].bytes = realloc(waiting[at].bytes, count))) fail("memory");
  memcpy(waiting[at].bytes, bytes, count), waiting[at].length = count;
}

/* Receives a parcel. Returns 1 if a message was delivered, -1 if the parcel may be received later. */
static int receive(const uint8_t *bytes, size_t count) {
  nixu_node_received got;
  size_t needed;
  char body[128] = "";
  uint32_t status = nixu_node_receive(&node, now(), bytes, count, &got, &fault);
  if (status == NIXU_FAULT)
    return fault == NIXU_NODE_NOT_UP || fault == NIXU_NODE_MUST_REPLAY || fault == NIXU_NODE_RESERVED || fault == NIXU_NODE_NOT_YET ? -1 : 0;
  must(status);
  if (got.kind == NIXU_RECEIVED_QUESTION) publish_parcel(got.source);
  if (got.kind != NIXU_RECEIVED_MESSAGE) return 0;
  record_line();
  must(nixu_node_body(&node, (uint8_t *)body, sizeof body - 1, &needed));
  delivered++;
  nanosleep(&(struct timespec){0, rand() % 10000000}, NULL); /* the work itself */
  act(body);
  return 1;
}

/* Receives what waits, as long as something comes of it. */
static void receive_waiting(void) {
  for (int some = 1; some;) {
    some = 0;
    for (size_t at = 0; at < waiting_count; at++) {
      int came = receive(waiting[at].bytes, waiting[at].length);
      some |= came == 1;
      if (came >= 0) free(waiting[at].bytes), waiting[at--] = waiting[--waiting_count];
    }
  }
}

/* What this lane has sent to a process may be lost: all of it goes out again. */
static void resend(int to) {
  uint8_t receiver;
  for (uint32_t ssn = 0; nixu_node_receiver(&node, ssn, &receiver) == NIXU_OK; ssn++)
    if (receiver == to) must(nixu_node_resend(&node, ssn, &fault)), publish_parcel(to);
}

/* ---- recovery ---- */

static uint64_t parts; /* those of storage's reply that have come, as bits */
static unsigned parts_rows; /* of how many rows that reply is */

/* What has not been answered is asked, again too: the processes, and once all have answered, storage. */
static void send_questions(void) {
  uint8_t awaited[256];
  char text[2200];
  uint32_t view[256];
  size_t needed, count;
  nixu_node_state it = state();
  if (it.stage == NIXU_STAGE_UP && is_requested) send_store_request();
  if (it.stage == NIXU_STAGE_GATHERING) {
    must(nixu_node_awaited(&node, awaited));
    for (int p = 0; p < processes; p++)
      if (awaited[p]) must(nixu_node_question(&node, now(), (uint8_t)p, &fault)), publish_parcel(p);
  } else if (it.stage == NIXU_STAGE_READING) {
    parts = 0;
    must(nixu_node_view(&node, view, 256, &needed));
    count = (size_t)snprintf(text, sizeof text, "read %d %" PRIu64 " ", me, round_name);
    for (size_t p = 0; p < needed; p++) count += (size_t)snprintf(text + count, 9, "%08" PRIx32, view[p]);
    publish("store", text, count);
  }
}

static void begin(void) {
  if (getrandom(&round_name, sizeof round_name, 0) != sizeof round_name) fail("getrandom"); /* no other round has this name */
  must(nixu_node_begin_round(&node, round_name, &fault));
  send_questions();
}

static void come_up(void) {
  printf("up %" PRIu64 "\n", state().clock), fflush(stdout);
  receive_waiting();
}

/* Storage has these: a part of its reply to the round of this name. */
static void take_part(const char *text) {
  uint64_t name, clock;
  unsigned part, all, rows, source, ssn, dest, rsn;
  if (sscanf(text, "has %" SCNu64 " %" SCNu64 " %u %u %u", &name, &clock, &part, &all, &rows) != 5 || name != round_name) return;
  if (state().stage != NIXU_STAGE_READING || all > 64) return;
  if (rows != parts_rows) parts = 0, parts_rows = rows; /* another reply, of a set that has grown */
  while ((text = strchr(text, '\n')) && sscanf(++text, "%u %u %u %u", &source, &ssn, &dest, &rsn) == 4) {
    nixu_determinant det = {.source = (uint8_t)source, .ssn = ssn, .dest = (uint8_t)dest, .rsn = rsn};
    uint64_t last = state().clock, at = now();
    if (clock > last) last = clock;
    must(nixu_node_stored(&node, at > last ? at : last + 1, &det, &fault));
    record_line();
  }
  parts |= (uint64_t)1 << part;
  if (parts == UINT64_MAX >> (64 - all)) must(nixu_node_finish_read(&node, round_name, &fault));
}

/* After something has come: a round that was given up begins again; once all have answered, storage is read. */
static void recover(void) {
  static uint64_t asked;
  nixu_node_state it = state();
  if (it.stage == NIXU_STAGE_DOWN) begin();
  if (it.stage == NIXU_STAGE_READING && asked != round_name) asked = round_name, send_questions();
  if (it.stage == NIXU_STAGE_READY) {
    must(nixu_node_restart(&node, now(), &fault));
    record_line();
    come_up();
  }
}

/* ---- the loop ---- */

static void handle(char whence, uint8_t *data, size_t count) {
  uint8_t end = data[count];
  data[count] = 0; /* the server's CR LF follows */
  if (whence == 's' && state().stage == NIXU_STAGE_UP) take_stored((char *)data);
  if (whence == 's') take_part((char *)data);
  if (whence == 'a' && atoi((char *)data) != me && data[0] >= '0' && data[0] <= '9') resend(atoi((char *)data));
  if (whence == 'a') send_questions();
  data[count] = end;
  if (whence == 'm' && count >= 32) keep(data, count), receive_waiting();
}

/* The whole messages of the buffer. */
static void parse(void) {
  char *line = (char *)buffer, *end;
  static uint8_t data[ROOM];
  while ((end = strstr(line, "\r\n"))) {
    size_t count = 0;
    char whence = 0;
    if (!strncmp(line, "MSG ", 4)) {
      for (char *at = end; at > line && !count; at--)
        if (*at == ' ') count = (size_t)atoi(at + 1);
      if ((size_t)(end + 2 - (char *)buffer) + count + 2 > length) break;
      whence = *(strchr(line + 4, ' ') + 1);
      memcpy(data, end + 2, count + 2);
      count += 2;
    } else if (!strncmp(line, "PING", 4)) {
      transmit("PONG\r\n", 6);
    }
    line = end + 2 + count;
    if (whence) handle(whence, data, count - 2);
  }
  length -= (size_t)(line - (char *)buffer);
  memmove(buffer, line, length + 1);
}

static void work(void) {
  struct pollfd came[2] = {{.fd = 0, .events = POLLIN}, {.events = POLLIN}};
  char name[8];
  for (;;) {
    came[1].fd = connection, came[0].revents = came[1].revents = 0;
    int ready = poll(came, 2, PATIENCE);
    if (came[0].revents) {
      if (read(0, out, 64) <= 0) exit(0); /* the starter has ended */
      show_book();
    }
    if (came[1].revents) {
      if (fill()) {
        parse();
      } else {
        join();
        for (int p = 0; p < processes; p++) resend(p);
        send_questions();
      }
    }
    if (state().stage == NIXU_STAGE_UP) store(); else recover();
    if (ready == 0) send_questions(), publish("all", name, (size_t)snprintf(name, sizeof name, "%d", me));
  }
}

int main(int count, char **words) {
  if (count != 7) return fprintf(stderr, "usage: worker PROCESS PROCESSES FAULTS RUN PORT,PORT.. RECORDING\n"), 3;
  nixu_node_identity it = {.process = (uint8_t)atoi(words[1]), .processes = (uint16_t)atoi(words[2]), .faults = (uint16_t)atoi(words[3])};
  size_t needed;
  me = it.process, processes = it.processes, run = it.run = strtoull(words[4], NULL, 10), ports = words[5];
  if (getrandom(&it.seed, sizeof it.seed, 0) != sizeof it.seed) fail("getrandom");
  if ((recording = open(words[6], O_WRONLY | O_CREAT | O_APPEND, 0644)) < 0 || flock(recording, LOCK_EX | LOCK_NB)) fail(words[6]);
  read_back(words[6], &it);
  must(nixu_node_open(&node, &it, &fault));
  must(nixu_node_header(&node, out, sizeof out, &needed));
  record("\n", 1); /* ends a line that a kill has cut */
  record(out, needed);
  srand((unsigned)it.seed);
  join();
  signal(SIGUSR1, cut);
  if (it.lane == 0) come_up(); else begin();
  work();
}
