/* nixu 1: the audit of recorded runs, and a process of a run, inside a program.

   Link libnixu.a, which needs a C library alone (docs/LIBRARY.md).

   Rules for every call:
   - A pointer points to `length`, `count` or `room` elements; no other thread may change them meanwhile. Memory that
     the call writes overlaps none of its other arguments. If the length is 0, the pointer may be null; an empty text is
     invalid, and an empty buffer receives no bytes. No other pointer may be null.
   - Each pointer is aligned for its type, as C aligns it: to 8 bytes for size_t and each struct that has a pointer, a
     size_t or a uint64_t, to 4 for the other structs and uint32_t, to 2 for uint16_t.
   - The library keeps no pointer and has no static state. It does not print, raise signals, start threads or wait.
     Calls may run in several threads at once, but only one at a time may use a reader, a trace or a node; threads that
     use one in turn synchronize, as for any memory.
   - A call needs at most NIXU_STACK bytes of stack, most of them for JSON values within JSON values. This is measured,
     not proved.
   - Memory comes from malloc and realloc. Each call frees it before it returns, except what an open handle owns.
   - Do not call it in a signal handler, or in the forked child of a process with several threads.
   - A call returns one of the statuses. Memory that a status is not documented to write is unchanged.

   A call that writes bytes writes as many as fit to `out`, and their total number to `needed`, as snprintf does. It
   adds no null byte. All bytes are written if `needed` is at most `room`.                                            */
#ifndef NIXU_H
#define NIXU_H

#include <stddef.h>
#include <stdint.h>

#ifdef __cplusplus
extern "C" {
#endif

#define NIXU_VERSION 1

/* The bytes of stack that a thread needs for a call, beyond what it uses itself. */
#define NIXU_STACK 524288

/* Returns the version of the linked library. If it is NIXU_VERSION, layouts and numbers are those of this header. */
uint32_t nixu_version(void);

/* ---- statuses ---- */

#define NIXU_OK        0 /* success */
#define NIXU_FAULT     1 /* the text or the entry is invalid, or a node refuses; the first error is written */
#define NIXU_NO_MEMORY 2 /* allocation failed */
#define NIXU_MISUSED   3 /* the arguments are invalid; each call lists the cases */
#define NIXU_CLOSED    4 /* no reader, no trace, or no node is open; nothing was done */

/* ---- the maximum number of entries of a trace, of which 192 may be restarts, or above the default one in 256 ---- */

#define NIXU_USUAL_ENTRIES 65536    /* the default */
#define NIXU_MOST_ENTRIES  16777216 /* the greatest number that a caller can choose */

/* ---- the verdict on a text ---- */

#define NIXU_ACCEPTED 0 /* every instant is safe */
#define NIXU_EXCEEDED 1 /* more processes are down than `faults` */
#define NIXU_ORPHAN   2 /* a delivery has an orphan */
#define NIXU_FAULTY   3 /* the text is invalid */

/* A field that its kind does not use is 0. */
typedef struct nixu_verdict {
  uint32_t kind;          /* one of the four above */
  uint32_t entries;       /* the number of entries in the trace; 0 if the text is invalid */
  uint32_t deliveries;    /* the number of deliveries among them */
  uint32_t instant;       /* exceeded, orphan: the first instant that is not safe, as a number of entries */
  uint32_t delivery;      /* orphan: the position of the first delivery that has an orphan then, from 0 */
  uint32_t orphan;        /* orphan: the lowest process that is an orphan */
  uint32_t line;          /* faulty: the line of the first error, from 1 */
  uint32_t fault;         /* faulty: the number of the error, one of those below */
  uint8_t processes[256]; /* exceeded: 1 for each down process; orphan: 1 for each of the crash set; otherwise 0 */
} nixu_verdict;

/* Writes the verdict on the trace that a text spells, for at most `faults` processes down at once; or the text's first
   error. A text has at most 33,554,432 bytes; the error of a longer one is NIXU_BIG.

   NIXU_OK, NIXU_FAULT: `told` is written. NIXU_NO_MEMORY. */
uint32_t nixu_audit(const uint8_t *text, size_t length, uint16_t faults, nixu_verdict *told);

/* Audits a text for several bounds: `told[i]` is the verdict for `faults[i]`. The text is read once. If it is invalid,
   each struct contains its first error.

   NIXU_OK, NIXU_FAULT: the first `count` of `told` are written. NIXU_MISUSED: `room` is less than `count`.
   NIXU_NO_MEMORY. */
uint32_t nixu_audit_each(const uint8_t *text, size_t length, const uint16_t *faults, size_t count, nixu_verdict *told,
                         size_t room);

/* ---- a reader of a text in pieces, to audit a run while it is recorded ---- */

/* Zero it before its first use: `nixu_reader reader = {0};`. Its fields belong to the library. It may be moved to
   another address between calls, if the bytes left behind are not used again; it may not be copied, since both would
   own one reader. An open reader owns memory until it is finished or closed. */
typedef struct nixu_reader {
  void *held;
  uint32_t full;
} nixu_reader;

/* Opens a reader under the default limits; it has read nothing.

   NIXU_OK. NIXU_MISUSED: it is already open. NIXU_NO_MEMORY. */
uint32_t nixu_reader_open(nixu_reader *reader);

/* Opens a reader of a trace with at most `entries` entries, 1 to NIXU_MOST_ENTRIES. The trace may list 16 determinants
   for each entry in all, and the text may have 512 bytes for each. nixu_reader_open allows NIXU_USUAL_ENTRIES.

   NIXU_OK. NIXU_MISUSED: it is already open, or `entries` is out of range. NIXU_NO_MEMORY. */
uint32_t nixu_reader_open_within(nixu_reader *reader, uint32_t entries);

/* Reads one more piece of the text, of any length; an empty piece changes nothing. The first error is returned as soon
   as a line has one, whatever follows.

   NIXU_OK. NIXU_FAULT: `told` is written, and the reader is closed. NIXU_NO_MEMORY: the reader is closed.
   NIXU_CLOSED. */
uint32_t nixu_reader_feed(nixu_reader *reader, const uint8_t *piece, size_t length, nixu_verdict *told);

/* Ends the text and writes the verdicts for `count` bounds, as nixu_audit_each does. The reader is then closed, except
   after NIXU_MISUSED.

   NIXU_OK, NIXU_FAULT: the first `count` of `told` are written. NIXU_MISUSED: `room` is less than `count`.
   NIXU_NO_MEMORY. NIXU_CLOSED. */
uint32_t nixu_reader_finish(nixu_reader *reader, const uint16_t *faults, size_t count, nixu_verdict *told, size_t room);

/* Closes a reader and frees its memory. Does nothing if it is zeroed or closed. */
void nixu_reader_close(nixu_reader *reader);

/* ---- entries without text, for a recorder in the same process ---- */

/* Zero it before its first use, as a reader; it may be moved but not copied. An open trace owns memory until it is
   closed. */
typedef struct nixu_trace {
  void *held;
  uint32_t full;
} nixu_trace;

/* The determinant of a delivery. */
typedef struct nixu_determinant {
  uint32_t ssn;   /* the message's send sequence number */
  uint32_t rsn;   /* the receive sequence number */
  uint8_t source; /* the message's sender */
  uint8_t dest;   /* the receiver */
} nixu_determinant;

#define NIXU_SEND    0 /* source, dest, ssn */
#define NIXU_DELIVER 1 /* dest, send, rsn, and the listed determinants */
#define NIXU_STABLE  2 /* source, ssn, dest, rsn: the determinant */
#define NIXU_CRASH   3 /* who */
#define NIXU_RESTART 4 /* who, and the listed determinants */
#define NIXU_FORGET  5 /* who, and the listed determinants */

/* An entry without its listed determinants. A field that its kind does not use is not read. */
typedef struct nixu_entry {
  uint32_t kind;  /* one of the six above */
  uint32_t ssn;   /* the send sequence number */
  uint32_t rsn;   /* the receive sequence number */
  uint32_t send;  /* the position of the send entry, from 0 */
  uint8_t source; /* the sender */
  uint8_t dest;   /* the receiver */
  uint8_t who;    /* the process that crashes, restarts or forgets */
} nixu_entry;

/* Opens an empty trace of `processes` processes, 1 to 256, under the default limits.

   NIXU_OK. NIXU_MISUSED: it is already open, or `processes` is out of range. NIXU_NO_MEMORY. */
uint32_t nixu_trace_open(nixu_trace *trace, uint16_t processes);

/* Opens an empty trace with at most `entries` entries, 1 to NIXU_MOST_ENTRIES. The trace may list 16 determinants for
   each entry in all. nixu_trace_open allows NIXU_USUAL_ENTRIES.

   NIXU_OK. NIXU_MISUSED: it is already open, or `processes` or `entries` is out of range.
   NIXU_NO_MEMORY. */
uint32_t nixu_trace_open_within(nixu_trace *trace, uint16_t processes, uint32_t entries);

/* Appends an entry with its `count` listed determinants, in ascending order.

   NIXU_OK. NIXU_FAULT: `fault` is the number of the entry's first error, one of those from NIXU_TOO_LONG to
   NIXU_NO_DELIVERY below. NIXU_MISUSED: the kind is unknown, or it lists no determinants and `count` is not 0.
   NIXU_NO_MEMORY. NIXU_CLOSED. */
uint32_t nixu_trace_push(nixu_trace *trace, const nixu_entry *entry, const nixu_determinant *listed, size_t count,
                         uint32_t *fault);

/* Writes the verdict on the entries so far, for at most `faults` processes down at once. The trace stays open.

   NIXU_OK: `told` is written. NIXU_NO_MEMORY. NIXU_CLOSED. */
uint32_t nixu_trace_audit(nixu_trace *trace, uint16_t faults, nixu_verdict *told);

/* Writes the canonical text of the trace so far, which the calls above can read. The trace stays open.

   NIXU_OK: the bytes are written. NIXU_NO_MEMORY. NIXU_CLOSED. */
uint32_t nixu_trace_text(nixu_trace *trace, uint8_t *out, size_t room, size_t *needed);

/* Closes a trace and frees its memory. Does nothing if it is zeroed or closed. */
void nixu_trace_close(nixu_trace *trace);

/* ---- whether recoveries follow what survives ---- */

#define NIXU_FOLLOWED 0 /* at each instant, each slot has at most one survivor */
#define NIXU_STRAYED  1 /* two different survivors fill one slot; NIXU_FAULTY: the text is invalid */

/* A determinant survives at an instant if it is stable or in the log of a process. A process that recovers has to
   deliver, in each slot (its next receive sequence number), the message that a survivor names. If two different
   survivors fill one slot, it has delivered another one. A field that its kind does not use is 0. */
typedef struct nixu_stray {
  uint32_t kind;    /* one of the two above, or NIXU_FAULTY */
  uint32_t instant; /* strayed: the first instant with such a slot, as a number of entries */
  uint32_t rsn;     /* strayed: the receive sequence number of the least such slot */
  uint32_t first;   /* strayed: the position of the first delivery with a survivor of the slot, from 0 */
  uint32_t second;  /* strayed: the position of the first delivery with another survivor of the slot */
  uint32_t line;    /* faulty: the line of the first error, from 1 */
  uint32_t fault;   /* faulty: the number of the error, one of those below */
  uint8_t process;  /* strayed: the receiver of the slot */
} nixu_stray;

/* Writes the first stray of the trace that a text spells, or that there is none; or the text's first error.

   NIXU_OK, NIXU_FAULT: `stray` is written. NIXU_NO_MEMORY. */
uint32_t nixu_replays(const uint8_t *text, size_t length, nixu_stray *stray);

/* Writes the first stray of the entries so far, or that there is none. The trace stays open.

   NIXU_OK: `stray` is written. NIXU_NO_MEMORY. NIXU_CLOSED. */
uint32_t nixu_trace_replays(nixu_trace *trace, nixu_stray *stray);

/* ---- what explains a verdict ---- */

/* The kinds of facts, with the fields that each uses: of an excess CAUSE and DOWN, of an accepted trace CLOSEST or
   NEVER, of an orphan all from DELIVERY to ORPHAN, and DOWN; then those from STRAYED on, if a recovery has strayed.
   The determinant is that of the delivery that has the orphan. */
#define NIXU_FACT_DOWN       1 /* process: it is down since its crash, entry */
#define NIXU_FACT_DELIVERY   2 /* delivery: it has the orphan; source, ssn, process (receiver), rsn: its determinant */
#define NIXU_FACT_CAUSE      3 /* entry: by it the instant fails; process, by; send, if it is a delivery */
#define NIXU_FACT_UNSTABLE   4 /* instant: the determinant is not in stable storage then */
#define NIXU_FACT_HOLDER     5 /* process: its log has the determinant since entry */
#define NIXU_FACT_NO_HOLDER  6 /* no log has the determinant */
#define NIXU_FACT_LOSS       7 /* process: its log had the determinant, and lost it last by entry; by */
#define NIXU_FACT_CRASH      8 /* process: it is in the crash set */
#define NIXU_FACT_CHAIN      9 /* entry: an event of process on a shortest way from the delivery to the orphan */
#define NIXU_FACT_UNLISTED  10 /* entry: the chain's first delivery whose receiver, process, then lacks it; send */
#define NIXU_FACT_LISTED    11 /* after each delivery of the chain its receiver has the determinant */
#define NIXU_FACT_UNDERWAY  12 /* entry: a later delivery brings it to process, of a message in transit then; send */
#define NIXU_FACT_ORPHAN    13 /* process: the orphan */
#define NIXU_FACT_CLOSEST   14 /* faults: the least number for which delivery has an orphan, process, at instant */
#define NIXU_FACT_NEVER     15 /* no delivery has an orphan, for any number of failures */
#define NIXU_FACT_STRAYED   16 /* as in nixu_stray: instant, process, rsn, delivery (the first), second */
#define NIXU_FACT_LOGGED    17 /* process: its log has the determinant of delivery since entry */
#define NIXU_FACT_STABLE    18 /* stable storage has the determinant of delivery */

/* A fact that explains a verdict. Entries are given by their positions, from 0: position k is on line k + 2 of the
   text. A field that its kind does not use is 0. */
typedef struct nixu_fact {
  uint32_t kind;     /* one of those above */
  uint32_t entry;    /* the entry of the fact */
  uint32_t delivery; /* the delivery that the fact is about */
  uint32_t send;     /* the send entry whose message is delivered */
  uint32_t second;   /* strayed: the first delivery with another survivor of the slot */
  uint32_t instant;  /* a number of entries */
  uint32_t ssn;      /* the message's send sequence number */
  uint32_t rsn;      /* the receive sequence number */
  uint32_t faults;   /* closest: a number of failures */
  uint32_t by;       /* cause, loss: the kind of the entry, NIXU_DELIVER, NIXU_CRASH, NIXU_RESTART or NIXU_FORGET */
  uint8_t process;   /* the process of the fact */
  uint8_t source;    /* delivery: the message's sender */
} nixu_fact;

/* Writes the verdict on the trace that a text spells, for at most `faults` processes down at once, and the facts that
   explain it: one for each line that nixu_explain prints below the first, in their order (docs/FORMAT.md). It writes as
   many as fit to `facts`, which has room for `room`, and their total number to `needed`. Or it writes the text's first
   error to `told`.

   NIXU_OK: `told`, the facts and `needed` are written. NIXU_FAULT: `told` is written. NIXU_NO_MEMORY. */
uint32_t nixu_facts(const uint8_t *text, size_t length, uint16_t faults, nixu_verdict *told, nixu_fact *facts,
                    size_t room, size_t *needed);

/* Writes the same of the entries so far. The trace stays open.

   NIXU_OK: all are written. NIXU_NO_MEMORY. NIXU_CLOSED. */
uint32_t nixu_trace_facts(nixu_trace *trace, uint16_t faults, nixu_verdict *told, nixu_fact *facts, size_t room,
                          size_t *needed);

/* Writes the same of the entries that the complete lines read so far have, the end line among them or not. The reader
   stays open.

   NIXU_OK: all are written. NIXU_MISUSED: the header line is not complete yet. NIXU_NO_MEMORY. NIXU_CLOSED. */
uint32_t nixu_reader_facts(nixu_reader *reader, uint16_t faults, nixu_verdict *told, nixu_fact *facts, size_t room,
                           size_t *needed);

/* ---- the recordings of a run's processes ---- */

typedef struct nixu_recording {
  const uint8_t *text; /* its bytes (docs/MERGING.md) */
  size_t length;
} nixu_recording;

/* Two more errors that recordings may have. The others have the numbers of the errors of a text, below. */
#define NIXU_NO_HEADER 21 /* some process has no header */
#define NIXU_TWICE     22 /* another line of this process has the same clock */

/* The first error of recordings, with the values that explain it. A field that its kind does not use is 0. */
typedef struct nixu_merge_fault {
  size_t recording;     /* the recording in which its line begins, from 0; of NIXU_NO_HEADER the last */
  uint32_t line;        /* the number of that line in the recording, from 1; of NIXU_NO_HEADER the one after the last */
  uint32_t kind;        /* the number of the error */
  uint32_t given;       /* wrong ssn, wrong rsn: the number that the line has */
  uint32_t next;        /* wrong ssn, wrong rsn: the one that is the next */
  uint32_t lane;        /* no send: the lane (incarnation) of the message's sender */
  uint32_t ssn;         /* no send, doubled: the message's number; no delivery: the determinant's */
  uint32_t rsn;         /* no delivery: the determinant's */
  uint8_t process;      /* wrong ssn, no send, wrong rsn, doubled: the process of the line */
  uint8_t source;       /* no send, doubled: the message's sender; no delivery: the determinant's */
  uint8_t dest;         /* no delivery: the determinant's */
  uint8_t missing[256]; /* no header: 1 for each process that has none, if the run is known; otherwise 0 */
} nixu_merge_fault;

/* Merges the recordings of all processes of a run into its trace, as `causal_tool merge` does: with at most `entries`
   entries, 1 to NIXU_MOST_ENTRIES. It writes the text of the trace, which the calls above can read. The recordings are
   read as one text, one after the other; a line that lacks its line feed goes on in the next recording. Torn lines are
   passed over. The recordings have at most 1,024 bytes for each entry together, and at most 2,147,483,648; they are
   copied.

   NIXU_OK: the bytes are written. NIXU_FAULT: `fault` is written. NIXU_MISUSED: `entries` is out of range.
   NIXU_NO_MEMORY. */
uint32_t nixu_merge(const nixu_recording *recordings, size_t count, uint32_t entries, uint8_t *out, size_t room,
                    size_t *needed, nixu_merge_fault *fault);

/* Writes the sentence for the number of an error of recordings, as nixu_fault_text does.

   NIXU_OK: the bytes are written. NIXU_MISUSED: no such error has the number. */
uint32_t nixu_merge_fault_text(uint32_t fault, uint8_t *out, size_t room, size_t *needed);

/* ---- the bytes that the program prints ---- */

/* Writes the line of the verdict, as `causal_tool audit` prints it, with its line feed; or the line of the text's first
   error.

   NIXU_OK, NIXU_FAULT: the bytes are written. NIXU_NO_MEMORY. */
uint32_t nixu_line(const uint8_t *text, size_t length, uint16_t faults, uint8_t *out, size_t room, size_t *needed);

/* Writes the line of the verdict and its explanation, as `causal_tool explain` prints them; or the line of the text's
   first error. Statuses as for nixu_line. */
uint32_t nixu_explain(const uint8_t *text, size_t length, uint16_t faults, uint8_t *out, size_t room, size_t *needed);

/* Writes the space-time diagram of the run with its verdict, in SVG, as `causal_tool draw` prints it. For an invalid
   text it writes no bytes, and `needed` is 0. Statuses as for nixu_line. */
uint32_t nixu_draw(const uint8_t *text, size_t length, uint16_t faults, uint8_t *out, size_t room, size_t *needed);

/* ---- errors ---- */

/* If a line has several errors, the first of this list is reported. */
#define NIXU_AFTER        1 /* a line follows the end line */
#define NIXU_BIG          2 /* the text is too long */
#define NIXU_SYNTAX       3 /* the line is not a JSON value */
#define NIXU_FORM         4 /* the line has none of the shapes */
#define NIXU_HEADER       5 /* the header is not the first line alone */
#define NIXU_BAD_VERSION  6 /* there is no such version */
#define NIXU_PROCESSES    7 /* the number of processes is not one that the version allows */
#define NIXU_TOO_LONG     8 /* the trace would be too long */
#define NIXU_NO_PROCESS   9 /* there is no such process */
#define NIXU_NOT_UP      10 /* the process is not up */
#define NIXU_NOT_DOWN    11 /* the process is not down */
#define NIXU_LANES       12 /* too many lanes have been opened */
#define NIXU_WRONG_SSN   13 /* the send sequence number is not the next one */
#define NIXU_NO_SEND     14 /* there is no such send */
#define NIXU_WRONG_RSN   15 /* the receive sequence number is not the next one */
#define NIXU_DOUBLED     16 /* the message has been delivered */
#define NIXU_UNSORTED    17 /* the determinants are not in order */
#define NIXU_NO_DELIVERY 18 /* there is no delivery of this determinant */
#define NIXU_COUNT       19 /* the number of entries is another */
#define NIXU_CUT         20 /* the text ends without an end line */

/* Writes the sentence for the number of an error, without a line feed; for 13 it is "the send sequence number is not
   the next one". Allocates nothing.

   NIXU_OK: the bytes are written. NIXU_MISUSED: no error has the number. */
uint32_t nixu_fault_text(uint32_t fault, uint8_t *out, size_t room, size_t *needed);

/* ---- a node: one process of a run that logs messages causally ---- */

/* The caller moves bytes between processes, passes the time, keeps the recording and stable storage (docs/NODE.md). The
   library does no input or output, and reads no clock.

   A call that changes a node keeps in it what it returns, until the next such call succeeds: a line of the recording, a
   parcel for another process, the body of a message, the determinants that are listed. nixu_node_line, _parcel, _body
   and _listed write them, as often as is needed. Write the line to the recording before the parcel leaves, and before
   the process acts on the body.

   `now` is the time in microseconds. Parcels carry clocks, so a node is never behind what it has received.

   NIXU_FAULT: `fault` is the number of the refusal, one of those below: the first of a call's list that applies. After
   NIXU_FAULT, NIXU_NO_MEMORY, NIXU_MISUSED and NIXU_CLOSED the node is unchanged, and the call can be made again. */

/* Zero it before its first use, as a reader; it may be moved but not copied. An open node owns memory until it is
   closed. */
typedef struct nixu_node {
  void *held;
  uint32_t full;
} nixu_node;

typedef struct nixu_node_identity {
  uint64_t run;       /* a number that no other run has */
  uint64_t clock;     /* the greatest clock of the process's recording; 0 if it is new */
  uint64_t seed;      /* a number that strangers do not know, for hash tables; only costs depend on it */
  uint32_t lane;      /* 0 if the recording is new; else one more than the number of its restarts */
  uint16_t processes; /* the number of processes, at most 256 */
  uint16_t faults;    /* the number of processes that may be down at once */
  uint8_t process;    /* this process, from 0 */
} nixu_node_identity;

/* Opens the node of a process. In lane 0 it is up. In a later lane it has to recover first: nixu_node_begin_round.

   NIXU_OK. NIXU_FAULT: NIXU_NODE_CLOCK, NIXU_NODE_NO_PROCESS (too many processes, or `process` is none of them).
   NIXU_MISUSED: it is already open. NIXU_NO_MEMORY. */
uint32_t nixu_node_open(nixu_node *node, const nixu_node_identity *identity, uint32_t *fault);

/* Closes a node and frees its memory. Does nothing if it is zeroed or closed. */
void nixu_node_close(nixu_node *node);

/* ---- messages ---- */

typedef struct nixu_node_sent {
  uint64_t clock; /* the clock of the send */
  size_t parcel;  /* the length of the parcel */
  uint32_t ssn;   /* the message's send sequence number */
} nixu_node_sent;

/* Sends a message to process `to`. Keeps it, its line and its parcel.

   NIXU_OK: `sent` is written. NIXU_FAULT: NIXU_NODE_NOT_UP, NIXU_NODE_NO_PROCESS, NIXU_NODE_FULL, NIXU_NODE_LONG,
   NIXU_NODE_CLOCK. NIXU_NO_MEMORY. NIXU_CLOSED. */
uint32_t nixu_node_send(nixu_node *node, uint64_t now, uint8_t to, const uint8_t *body, size_t length,
                        nixu_node_sent *sent, uint32_t *fault);

#define NIXU_RECEIVED_MESSAGE         0 /* a message was delivered: its line and its body are kept */
#define NIXU_RECEIVED_ACKNOWLEDGEMENT 1 /* `source` holds determinants */
#define NIXU_RECEIVED_QUESTION        2 /* `source` recovers: the parcel that replies to it is kept */
#define NIXU_RECEIVED_LOG             3 /* `source` has replied with its log */
#define NIXU_RECEIVED_NUMBER          4 /* `source` has replied with its lane: the round is given up; begin another */
#define NIXU_RECEIVED_NOT_UP          5 /* `source` has replied that it is not up; the round may be given up */

/* What was received. A field that its kind does not use is 0. */
typedef struct nixu_node_received {
  uint64_t clock;  /* message: the clock of the delivery */
  size_t body;     /* message: the length of its body */
  size_t parcel;   /* question: the length of the reply */
  size_t listed;   /* message: the number of determinants that the delivery lists */
  uint32_t kind;   /* one of the six above */
  uint32_t ssn;    /* message: its send sequence number */
  uint32_t rsn;    /* message: its receive sequence number */
  uint32_t lane;   /* message: the lane (incarnation) of its sender */
  uint8_t source;  /* the process that has sent the parcel */
} nixu_node_received;

/* Receives a parcel. After NIXU_NODE_NOT_UP, NIXU_NODE_MUST_REPLAY, NIXU_NODE_RESERVED and NIXU_NODE_NOT_YET it can be
   received later; after another refusal never, so drop it.

   NIXU_OK: `received` is written. NIXU_FAULT: NIXU_WIRE_SHORT to NIXU_WIRE_TRAILING (the first error of the bytes),
   NIXU_NODE_NOT_MINE, NIXU_NODE_OWN_PARCEL; and
   - of a message NIXU_NODE_NOT_UP, NIXU_NODE_NO_PROCESS, NIXU_NODE_OLD_LANE, NIXU_NODE_DUPLICATE,
     NIXU_NODE_MUST_REPLAY, NIXU_NODE_RESERVED, NIXU_NODE_FULL, NIXU_NODE_CLOCK;
   - of an acknowledgement NIXU_NODE_NOT_UP, NIXU_NODE_NO_PROCESS, NIXU_NODE_OLD_LANE;
   - of a question NIXU_NODE_NO_PROCESS, NIXU_NODE_VIEW, NIXU_NODE_OLD_LANE, NIXU_NODE_NOT_YET, NIXU_NODE_CLOCK;
   - of a reply NIXU_NODE_UP, NIXU_NODE_UNASKED.
   NIXU_NO_MEMORY. NIXU_CLOSED. */
uint32_t nixu_node_receive(nixu_node *node, uint64_t now, const uint8_t *bytes, size_t length,
                           nixu_node_received *received, uint32_t *fault);

typedef struct nixu_node_message {
  uint32_t ssn;   /* its send sequence number */
  uint8_t exists; /* 1; or 0 if there is no such message, and the other fields are 0 */
  uint8_t source; /* its sender */
} nixu_node_message;

/* Writes which message has to be delivered next, if the log names one: all others are NIXU_NODE_MUST_REPLAY.

   NIXU_OK: `due` is written. NIXU_CLOSED. */
uint32_t nixu_node_due(nixu_node *node, nixu_node_message *due);

/* Writes to which process the message number `ssn` was sent: the messages of the present lane are kept.

   NIXU_OK: `to` is written. NIXU_MISUSED: there is no such message. NIXU_CLOSED. */
uint32_t nixu_node_receiver(nixu_node *node, uint32_t ssn, uint8_t *to);

/* Keeps the parcel of the message number `ssn` again, for a receiver that may have lost it: the receiver drops what it
   has delivered. It has no line.

   NIXU_OK. NIXU_FAULT: NIXU_NODE_LONG. NIXU_MISUSED: there is no such message. NIXU_NO_MEMORY. NIXU_CLOSED. */
uint32_t nixu_node_resend(nixu_node *node, uint32_t ssn, uint32_t *fault);

/* Keeps the parcel of an acknowledgement to process `to`: of the `count` determinants, in ascending order, those that
   are logged, with their known holders. Usually to a message's sender, of what the delivery lists.

   NIXU_OK. NIXU_FAULT: NIXU_NODE_NOT_UP, NIXU_NODE_NO_PROCESS, NIXU_NODE_LONG, NIXU_NODE_CLOCK. NIXU_MISUSED: the
   determinants do not ascend. NIXU_NO_MEMORY. NIXU_CLOSED. */
uint32_t nixu_node_acknowledge(nixu_node *node, uint64_t now, uint8_t to, const nixu_determinant *listed, size_t count,
                               uint32_t *fault);

/* ---- what the last call has kept; a kind of which it has kept nothing has 0 elements ---- */

/* Writes the line of the recording, with its line feed: of a send, a delivery, nixu_node_stored, a restart, and a
   forgetting that lists a determinant.

   NIXU_OK: the bytes are written. NIXU_NO_MEMORY. NIXU_CLOSED. */
uint32_t nixu_node_line(nixu_node *node, uint8_t *out, size_t room, size_t *needed);

/* Writes the parcel for another process: of a send, a question, the reply to one, an acknowledgement, a resend.

   NIXU_OK: the bytes are written. NIXU_CLOSED. */
uint32_t nixu_node_parcel(nixu_node *node, uint8_t *out, size_t room, size_t *needed);

/* Writes the body of the message that was delivered.

   NIXU_OK: the bytes are written. NIXU_CLOSED. */
uint32_t nixu_node_body(nixu_node *node, uint8_t *out, size_t room, size_t *needed);

/* Writes the determinants that a delivery, a restart or a forgetting lists, ascending: as many as fit to `out`, and
   their total number to `needed`.

   NIXU_OK: they are written. NIXU_CLOSED. */
uint32_t nixu_node_listed(nixu_node *node, nixu_determinant *out, size_t room, size_t *needed);

/* ---- stable storage ---- */

/* Writes the determinants that the node logs and does not know to be stable, as nixu_node_listed does.

   NIXU_OK: they are written. NIXU_NO_MEMORY. NIXU_CLOSED. */
uint32_t nixu_node_unstored(nixu_node *node, nixu_determinant *out, size_t room, size_t *needed);

/* Stable storage has this determinant: it has confirmed a write, or it was read for a recovery once all processes had
   replied. Keeps the line.

   NIXU_OK. NIXU_FAULT: NIXU_NODE_NO_ROUND, NIXU_NODE_WAITING, NIXU_NODE_CLOCK. NIXU_NO_MEMORY. NIXU_CLOSED. */
uint32_t nixu_node_stored(nixu_node *node, uint64_t now, const nixu_determinant *determinant, uint32_t *fault);

/* Removes from the log what is known to be stable, except of deliveries that have still to be made. Keeps the line,
   unless nothing is listed, and the list.

   NIXU_OK. NIXU_FAULT: NIXU_NODE_NOT_UP, NIXU_NODE_CLOCK. NIXU_NO_MEMORY. NIXU_CLOSED. */
uint32_t nixu_node_forget(nixu_node *node, uint64_t now, uint32_t *fault);

/* ---- recovery ---- */

/* Begins a round with a name that no other round of the process has had, also in earlier lanes. An earlier round is
   given up. Each other process has to be asked.

   NIXU_OK. NIXU_FAULT: NIXU_NODE_UP. NIXU_NO_MEMORY. NIXU_CLOSED. */
uint32_t nixu_node_begin_round(nixu_node *node, uint64_t round, uint32_t *fault);

/* Keeps the parcel of the round's question to process `to`, which may be asked again.

   NIXU_OK. NIXU_FAULT: NIXU_NODE_UP, NIXU_NODE_NO_ROUND, NIXU_NODE_NO_PROCESS, NIXU_NODE_CLOCK. NIXU_NO_MEMORY.
   NIXU_CLOSED. */
uint32_t nixu_node_question(nixu_node *node, uint64_t now, uint8_t to, uint32_t *fault);

/* Writes 1 for each process that has still to reply to the round, 0 for the others.

   NIXU_OK: `processes` is written. NIXU_CLOSED. */
uint32_t nixu_node_awaited(nixu_node *node, uint8_t processes[256]);

/* Writes the least lane of each process that is accepted, as many as fit to `out`, and their number to `needed`. While
   the node is not up, they are the view of its round: once stable storage is read for it, it refuses writes of lesser
   lanes.

   NIXU_OK: they are written. NIXU_CLOSED. */
uint32_t nixu_node_view(nixu_node *node, uint32_t *out, size_t room, size_t *needed);

/* Takes from the caller, who knows that process `who` has ended and how often it has restarted, that it is not up and
   that `lane` is its next lane: in the place of its reply to the round. That it has ended must be seen during the
   round: it may have come up since what was seen before. The round may be given up, since its questions had another
   lane; begin another.

   NIXU_OK. NIXU_FAULT: NIXU_NODE_UP, NIXU_NODE_UNASKED. NIXU_NO_MEMORY. NIXU_CLOSED. */
uint32_t nixu_node_take_ended(nixu_node *node, uint64_t round, uint8_t who, uint32_t lane, uint32_t *fault);

/* Ends the reading of stable storage for the round, after nixu_node_stored for each determinant that it has.

   NIXU_OK. NIXU_FAULT: NIXU_NODE_UP, NIXU_NODE_UNASKED, NIXU_NODE_WAITING. NIXU_CLOSED. */
uint32_t nixu_node_finish_read(nixu_node *node, uint64_t round, uint32_t *fault);

/* Restarts: the process is up, with what its round has gathered. Keeps the line and the list.

   NIXU_OK. NIXU_FAULT: NIXU_NODE_UP, NIXU_NODE_NO_ROUND, NIXU_NODE_WAITING, NIXU_NODE_CLOCK. NIXU_NO_MEMORY.
   NIXU_CLOSED. */
uint32_t nixu_node_restart(nixu_node *node, uint64_t now, uint32_t *fault);

/* ---- other lines of the recording, and the state ---- */

/* Writes the header line of the process's recording, with its line feed. An opening of the recording begins with a line
   feed and this line.

   NIXU_OK: the bytes are written. NIXU_NO_MEMORY. NIXU_CLOSED. */
uint32_t nixu_node_header(nixu_node *node, uint8_t *out, size_t room, size_t *needed);

/* Writes the line of a crash of `process`, with its line feed, for whoever has seen the process end. `clock` is above
   each of its recording.

   NIXU_OK: the bytes are written. NIXU_NO_MEMORY. */
uint32_t nixu_crash_line(uint8_t process, uint64_t clock, uint8_t *out, size_t room, size_t *needed);

#define NIXU_STAGE_UP        0 /* it sends and receives messages */
#define NIXU_STAGE_DOWN      1 /* a round has to begin */
#define NIXU_STAGE_GATHERING 2 /* processes have still to reply to the round */
#define NIXU_STAGE_READING   3 /* all have replied; stable storage has to be read */
#define NIXU_STAGE_READY     4 /* it can restart */

typedef struct nixu_node_state {
  uint64_t clock;    /* the greatest clock so far */
  uint64_t round;    /* the name of the round; 0 if there is none */
  uint32_t stage;    /* one of the five above */
  uint32_t lane;     /* the lane (incarnation); the next one if it is not up */
  uint32_t logged;   /* the number of determinants in the log */
  uint32_t sent;     /* the number of messages of the lane that were sent, and are kept */
  uint32_t received; /* the number of messages that were delivered in the lane, whose names are kept */
} nixu_node_state;

/* Writes the state of a node, and how much it holds.

   NIXU_OK: `state` is written. NIXU_CLOSED. */
uint32_t nixu_node_inspect(nixu_node *node, nixu_node_state *state);

/* ---- refusals of a node ---- */

#define NIXU_WIRE_SHORT        32 /* the bytes end too early */
#define NIXU_WIRE_VERSION      33 /* another version of the format */
#define NIXU_WIRE_KIND         34 /* no such kind of parcel */
#define NIXU_WIRE_RUN          35 /* a parcel of another run, or its number of processes or of faults differs */
#define NIXU_WIRE_PROCESS      36 /* there is no such process */
#define NIXU_WIRE_CLOCK        37 /* the clock is 2^62 or greater */
#define NIXU_WIRE_UNSORTED     38 /* the determinants do not ascend */
#define NIXU_WIRE_HOLDER       39 /* the holders do not ascend, or the source is among them */
#define NIXU_WIRE_FLAG         40 /* a flag is neither 0 nor 1 */
#define NIXU_WIRE_TRAILING     41 /* bytes follow the end */
#define NIXU_NODE_NOT_MINE     64 /* the parcel is for another process */
#define NIXU_NODE_OWN_PARCEL   65 /* the parcel is from this process itself */
#define NIXU_NODE_LONG         66 /* the body has 2^32 bytes or more, or there are as many determinants */
#define NIXU_NODE_CLOCK        67 /* the clock would be 2^62 or greater */
#define NIXU_NODE_NO_PROCESS   68 /* there is no such process */
#define NIXU_NODE_NOT_UP       69 /* the process is not up */
#define NIXU_NODE_UP           70 /* the process is up */
#define NIXU_NODE_NO_ROUND     71 /* no round has begun */
#define NIXU_NODE_UNASKED      72 /* the reply is to another round, or the process has replied */
#define NIXU_NODE_OLD_LANE     73 /* the lane is not accepted any more */
#define NIXU_NODE_DUPLICATE    74 /* the message has been delivered */
#define NIXU_NODE_MUST_REPLAY  75 /* another message has to be delivered first: nixu_node_due */
#define NIXU_NODE_RESERVED     76 /* the message has to be delivered later */
#define NIXU_NODE_VIEW         77 /* the question has another number of processes */
#define NIXU_NODE_NOT_YET      78 /* this process recovers too, and goes before the one that asks */
#define NIXU_NODE_WAITING      79 /* a process or stable storage has still to reply */
#define NIXU_NODE_FULL         80 /* a limit would be exceeded */

/* Writes the sentence for the number of a refusal, as nixu_fault_text does.

   NIXU_OK: the bytes are written. NIXU_MISUSED: no refusal has the number. */
uint32_t nixu_node_fault_text(uint32_t fault, uint8_t *out, size_t room, size_t *needed);

/* ---- the layout, checked by each compiler that reads this ---- */

#define NIXU_CHECKED(name, test) typedef char nixu_checked_##name[(test) ? 1 : -1]
NIXU_CHECKED(bits, sizeof(uint8_t) == 1 && sizeof(size_t) == 8);
NIXU_CHECKED(verdict, sizeof(nixu_verdict) == 288);
NIXU_CHECKED(kind, offsetof(nixu_verdict, kind) == 0);
NIXU_CHECKED(entries, offsetof(nixu_verdict, entries) == 4);
NIXU_CHECKED(deliveries, offsetof(nixu_verdict, deliveries) == 8);
NIXU_CHECKED(instant, offsetof(nixu_verdict, instant) == 12);
NIXU_CHECKED(delivery, offsetof(nixu_verdict, delivery) == 16);
NIXU_CHECKED(orphan, offsetof(nixu_verdict, orphan) == 20);
NIXU_CHECKED(line, offsetof(nixu_verdict, line) == 24);
NIXU_CHECKED(fault, offsetof(nixu_verdict, fault) == 28);
NIXU_CHECKED(processes, offsetof(nixu_verdict, processes) == 32);
NIXU_CHECKED(reader, sizeof(nixu_reader) == 16 && offsetof(nixu_reader, held) == 0 && offsetof(nixu_reader, full) == 8);
NIXU_CHECKED(trace, sizeof(nixu_trace) == 16 && offsetof(nixu_trace, held) == 0 && offsetof(nixu_trace, full) == 8);
NIXU_CHECKED(determinant, sizeof(nixu_determinant) == 12);
NIXU_CHECKED(determinant_ssn, offsetof(nixu_determinant, ssn) == 0);
NIXU_CHECKED(determinant_rsn, offsetof(nixu_determinant, rsn) == 4);
NIXU_CHECKED(determinant_source, offsetof(nixu_determinant, source) == 8);
NIXU_CHECKED(determinant_dest, offsetof(nixu_determinant, dest) == 9);
NIXU_CHECKED(entry, sizeof(nixu_entry) == 20 && offsetof(nixu_entry, kind) == 0);
NIXU_CHECKED(entry_ssn, offsetof(nixu_entry, ssn) == 4);
NIXU_CHECKED(entry_rsn, offsetof(nixu_entry, rsn) == 8);
NIXU_CHECKED(entry_send, offsetof(nixu_entry, send) == 12);
NIXU_CHECKED(entry_source, offsetof(nixu_entry, source) == 16);
NIXU_CHECKED(entry_dest, offsetof(nixu_entry, dest) == 17);
NIXU_CHECKED(entry_who, offsetof(nixu_entry, who) == 18);

NIXU_CHECKED(stray, sizeof(nixu_stray) == 32 && offsetof(nixu_stray, kind) == 0);
NIXU_CHECKED(stray_instant, offsetof(nixu_stray, instant) == 4);
NIXU_CHECKED(stray_rsn, offsetof(nixu_stray, rsn) == 8);
NIXU_CHECKED(stray_first, offsetof(nixu_stray, first) == 12);
NIXU_CHECKED(stray_second, offsetof(nixu_stray, second) == 16);
NIXU_CHECKED(stray_line, offsetof(nixu_stray, line) == 20);
NIXU_CHECKED(stray_fault, offsetof(nixu_stray, fault) == 24);
NIXU_CHECKED(stray_process, offsetof(nixu_stray, process) == 28);

NIXU_CHECKED(fact, sizeof(nixu_fact) == 44 && offsetof(nixu_fact, kind) == 0);
NIXU_CHECKED(fact_entry, offsetof(nixu_fact, entry) == 4);
NIXU_CHECKED(fact_delivery, offsetof(nixu_fact, delivery) == 8);
NIXU_CHECKED(fact_send, offsetof(nixu_fact, send) == 12);
NIXU_CHECKED(fact_second, offsetof(nixu_fact, second) == 16);
NIXU_CHECKED(fact_instant, offsetof(nixu_fact, instant) == 20);
NIXU_CHECKED(fact_ssn, offsetof(nixu_fact, ssn) == 24);
NIXU_CHECKED(fact_rsn, offsetof(nixu_fact, rsn) == 28);
NIXU_CHECKED(fact_faults, offsetof(nixu_fact, faults) == 32);
NIXU_CHECKED(fact_by, offsetof(nixu_fact, by) == 36);
NIXU_CHECKED(fact_process, offsetof(nixu_fact, process) == 40);
NIXU_CHECKED(fact_source, offsetof(nixu_fact, source) == 41);
NIXU_CHECKED(recording, sizeof(nixu_recording) == 16 && offsetof(nixu_recording, text) == 0);
NIXU_CHECKED(recording_length, offsetof(nixu_recording, length) == 8);
NIXU_CHECKED(merge_fault, sizeof(nixu_merge_fault) == 296 && offsetof(nixu_merge_fault, recording) == 0);
NIXU_CHECKED(merge_fault_line, offsetof(nixu_merge_fault, line) == 8);
NIXU_CHECKED(merge_fault_kind, offsetof(nixu_merge_fault, kind) == 12);
NIXU_CHECKED(merge_fault_given, offsetof(nixu_merge_fault, given) == 16);
NIXU_CHECKED(merge_fault_next, offsetof(nixu_merge_fault, next) == 20);
NIXU_CHECKED(merge_fault_lane, offsetof(nixu_merge_fault, lane) == 24);
NIXU_CHECKED(merge_fault_ssn, offsetof(nixu_merge_fault, ssn) == 28);
NIXU_CHECKED(merge_fault_rsn, offsetof(nixu_merge_fault, rsn) == 32);
NIXU_CHECKED(merge_fault_process, offsetof(nixu_merge_fault, process) == 36);
NIXU_CHECKED(merge_fault_source, offsetof(nixu_merge_fault, source) == 37);
NIXU_CHECKED(merge_fault_dest, offsetof(nixu_merge_fault, dest) == 38);
NIXU_CHECKED(merge_fault_missing, offsetof(nixu_merge_fault, missing) == 39);

NIXU_CHECKED(node, sizeof(nixu_node) == 16 && offsetof(nixu_node, held) == 0 && offsetof(nixu_node, full) == 8);
NIXU_CHECKED(identity, sizeof(nixu_node_identity) == 40 && offsetof(nixu_node_identity, run) == 0);
NIXU_CHECKED(identity_clock, offsetof(nixu_node_identity, clock) == 8);
NIXU_CHECKED(identity_seed, offsetof(nixu_node_identity, seed) == 16);
NIXU_CHECKED(identity_lane, offsetof(nixu_node_identity, lane) == 24);
NIXU_CHECKED(identity_processes, offsetof(nixu_node_identity, processes) == 28);
NIXU_CHECKED(identity_faults, offsetof(nixu_node_identity, faults) == 30);
NIXU_CHECKED(identity_process, offsetof(nixu_node_identity, process) == 32);
NIXU_CHECKED(sent, sizeof(nixu_node_sent) == 24 && offsetof(nixu_node_sent, clock) == 0);
NIXU_CHECKED(sent_parcel, offsetof(nixu_node_sent, parcel) == 8);
NIXU_CHECKED(sent_ssn, offsetof(nixu_node_sent, ssn) == 16);
NIXU_CHECKED(received, sizeof(nixu_node_received) == 56 && offsetof(nixu_node_received, clock) == 0);
NIXU_CHECKED(received_body, offsetof(nixu_node_received, body) == 8);
NIXU_CHECKED(received_parcel, offsetof(nixu_node_received, parcel) == 16);
NIXU_CHECKED(received_listed, offsetof(nixu_node_received, listed) == 24);
NIXU_CHECKED(received_kind, offsetof(nixu_node_received, kind) == 32);
NIXU_CHECKED(received_ssn, offsetof(nixu_node_received, ssn) == 36);
NIXU_CHECKED(received_rsn, offsetof(nixu_node_received, rsn) == 40);
NIXU_CHECKED(received_lane, offsetof(nixu_node_received, lane) == 44);
NIXU_CHECKED(received_source, offsetof(nixu_node_received, source) == 48);
NIXU_CHECKED(message, sizeof(nixu_node_message) == 8 && offsetof(nixu_node_message, ssn) == 0);
NIXU_CHECKED(message_exists, offsetof(nixu_node_message, exists) == 4);
NIXU_CHECKED(message_source, offsetof(nixu_node_message, source) == 5);
NIXU_CHECKED(state, sizeof(nixu_node_state) == 40 && offsetof(nixu_node_state, clock) == 0);
NIXU_CHECKED(state_round, offsetof(nixu_node_state, round) == 8);
NIXU_CHECKED(state_stage, offsetof(nixu_node_state, stage) == 16);
NIXU_CHECKED(state_lane, offsetof(nixu_node_state, lane) == 20);
NIXU_CHECKED(state_logged, offsetof(nixu_node_state, logged) == 24);
NIXU_CHECKED(state_sent, offsetof(nixu_node_state, sent) == 28);
NIXU_CHECKED(state_received, offsetof(nixu_node_state, received) == 32);

#ifdef __cplusplus
}
#endif

#endif
