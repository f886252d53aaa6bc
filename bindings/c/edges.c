/* Calls at the edges of what the header allows: null pointers, small rooms, numbers that no fault has, a text that is too long,
   handles that are zeroed, closed or open already.

   edges FILE [long]    a file that spells a trace; with a second word a text of the greatest length is tried too */
#include "text.h"

#include <stdio.h>
#include <stdlib.h>
#include <string.h>

enum { ROOM = 256, LONGEST = 33554432 };

static int wrong;

static void expect(int holds, const char *what) {
  if (holds) return;
  wrong++;
  printf("not so: %s\n", what);
}

static int is_filled(const void *at, size_t length) {
  const uint8_t *byte = at;
  while (length && byte[length - 1] == 0xa5) length--;
  return !length;
}

static void try_no_text(void) {
  nixu_verdict told;
  size_t needed = 0;
  expect(nixu_audit(NULL, 0, 1, &told) == NIXU_FAULT, "a text of no bytes has a fault");
  expect(told.kind == NIXU_FAULTY && told.line == 1 && told.fault == NIXU_CUT, "that fault is Cut at line 1");
  expect(nixu_line(NULL, 0, 1, NULL, 0, &needed) == NIXU_FAULT, "its line is told");
  expect(needed == strlen("fault line=1 Cut\n"), "the line's length is told without room");
  expect(nixu_draw(NULL, 0, 1, NULL, 0, &needed) == NIXU_FAULT && needed == 0, "there is no picture of it");
}

static void try_rooms(bytes text) {
  uint8_t whole[ROOM], out[ROOM];
  size_t needed = 0, again = 0;
  expect(nixu_line(text.at, text.length, 1, whole, ROOM, &needed) == NIXU_OK && needed < ROOM, "a room is large enough");
  for (size_t room = 0; room <= needed + 1; room++) {
    size_t given = room < needed ? room : needed;
    memset(out, 0xa5, ROOM);
    expect(nixu_line(text.at, text.length, 1, out, room, &again) == NIXU_OK && again == needed, "any room will do");
    expect(!memcmp(out, whole, given) && is_filled(out + given, ROOM - given), "the front is given, and no more");
  }
}

static void try_faults(void) {
  uint8_t out[ROOM];
  size_t needed = 0;
  for (uint32_t fault = NIXU_AFTER; fault <= NIXU_CUT; fault++)
    expect(nixu_fault_text(fault, out, ROOM, &needed) == NIXU_OK && needed > 0 && needed < ROOM, "a fault has a sentence");
  memset(out, 0xa5, ROOM);
  needed = 77;
  expect(nixu_fault_text(0, out, ROOM, &needed) == NIXU_MISUSED, "no fault has the number 0");
  expect(nixu_fault_text(NIXU_CUT + 1, out, ROOM, &needed) == NIXU_MISUSED, "no fault has the number 21");
  expect(nixu_fault_text(UINT32_MAX, out, ROOM, &needed) == NIXU_MISUSED, "no fault has the greatest number");
  expect(needed == 77 && is_filled(out, ROOM), "nothing was written then");
}

static void try_places(bytes text) {
  static const uint16_t faults[] = {0, 1, 65535};
  nixu_verdict told[3], alone;
  memset(told, 0xa5, sizeof told);
  expect(nixu_audit_each(text.at, text.length, faults, 3, told, 2) == NIXU_MISUSED, "three verdicts have no room in two places");
  expect(nixu_audit_each(text.at, text.length, NULL, 0, NULL, 0) == NIXU_OK, "no verdict may be asked for");
  expect(is_filled(told, sizeof told), "nothing was written then");
  expect(nixu_audit_each(text.at, text.length, faults, 2, told, 3) == NIXU_OK, "there may be more places");
  expect(is_filled(&told[2], sizeof told[2]), "the last place was left");
  expect(nixu_audit(text.at, text.length, 1, &alone) == NIXU_OK, "one verdict");
  expect(!memcmp(&alone, &told[1], sizeof alone), "is the same");
}

static void try_no_reader(nixu_reader *reader) {
  static const uint16_t faults[] = {1};
  nixu_verdict told;
  memset(&told, 0xa5, sizeof told);
  expect(nixu_reader_feed(reader, NULL, 0, &told) == NIXU_CLOSED, "no reader is fed");
  expect(nixu_reader_finish(reader, faults, 1, &told, 1) == NIXU_CLOSED, "no reader is finished");
  nixu_reader_close(reader);
  expect(is_filled(&told, sizeof told), "nothing was written then");
  expect(!reader->held && !reader->full, "no reader is open");
}

static void try_reader(bytes text) {
  static const uint16_t faults[] = {1, 1};
  nixu_reader reader = {0};
  nixu_verdict told, alone;
  try_no_reader(&reader);
  expect(nixu_reader_open(&reader) == NIXU_OK && nixu_reader_open(&reader) == NIXU_MISUSED, "a reader is opened once");
  expect(nixu_reader_feed(&reader, NULL, 0, &told) == NIXU_OK, "a piece may be empty");
  for (size_t at = 0; at < text.length; at++)
    expect(nixu_reader_feed(&reader, text.at + at, 1, &told) == NIXU_OK, "a piece may be a byte");
  expect(nixu_reader_finish(&reader, faults, 2, &told, 1) == NIXU_MISUSED, "two verdicts have no room in one place");
  expect(nixu_reader_finish(&reader, faults, 1, &told, 1) == NIXU_OK, "the reader is open still");
  expect(nixu_audit(text.at, text.length, 1, &alone) == NIXU_OK && !memcmp(&alone, &told, sizeof told), "one verdict");
  try_no_reader(&reader);
  expect(nixu_reader_open(&reader) == NIXU_OK, "a reader is opened again");
  nixu_reader_close(&reader);
  try_no_reader(&reader);
  expect(nixu_reader_open(&reader) == NIXU_OK, "and again");
  expect(nixu_reader_feed(&reader, (const uint8_t *)"[]\n", 3, &told) == NIXU_FAULT, "the fault of a line is told");
  expect(told.kind == NIXU_FAULTY && told.line == 1 && told.fault == NIXU_FORM, "that fault is Form at line 1");
  try_no_reader(&reader);
}

/* A header, two sends and the end line, each of which a reader of so many entries takes or not. */
static uint32_t fed_two_sends(uint32_t entries, nixu_verdict *told) {
  static const char two[] = "[\"trace\",1,2]\n[\"send\",0,1,0]\n[\"send\",0,1,1]\n[\"end\",2]\n";
  static const uint16_t faults[] = {1};
  nixu_reader reader = {0};
  uint32_t status = nixu_reader_open_within(&reader, entries);
  if (status == NIXU_OK) status = nixu_reader_feed(&reader, (const uint8_t *)two, strlen(two), told);
  if (status == NIXU_OK) status = nixu_reader_finish(&reader, faults, 1, told, 1);
  nixu_reader_close(&reader);
  return status;
}

static void try_limits_of_a_reader(void) {
  nixu_verdict told;
  expect(fed_two_sends(0, &told) == NIXU_MISUSED, "a trace may have an entry");
  expect(fed_two_sends(NIXU_MOST_ENTRIES + 1, &told) == NIXU_MISUSED, "there is a greatest number of entries");
  expect(fed_two_sends(1, &told) == NIXU_FAULT && told.line == 3 && told.fault == NIXU_TOO_LONG, "two are more than one");
  expect(fed_two_sends(2, &told) == NIXU_OK && told.entries == 2, "two are two");
  expect(fed_two_sends(NIXU_MOST_ENTRIES, &told) == NIXU_OK && told.entries == 2, "two are fewer than the most");
}

static void try_limits_of_a_trace(void) {
  static const nixu_entry crash = {NIXU_CRASH, 0, 0, 0, 0, 0, 0}, restart = {NIXU_RESTART, 0, 0, 0, 0, 0, 0};
  nixu_trace trace = {0};
  uint32_t fault = 77;
  expect(nixu_trace_open_within(&trace, 2, 0) == NIXU_MISUSED, "a trace may have an entry");
  expect(nixu_trace_open_within(&trace, 2, NIXU_MOST_ENTRIES + 1) == NIXU_MISUSED, "there is a greatest number of entries");
  expect(nixu_trace_open_within(&trace, 0, 1) == NIXU_MISUSED, "1 to 256 processes");
  expect(nixu_trace_open_within(&trace, 2, 1) == NIXU_OK, "one entry may be enough");
  expect(nixu_trace_push(&trace, &crash, NULL, 0, &fault) == NIXU_OK, "the first is taken");
  expect(nixu_trace_push(&trace, &restart, NULL, 0, &fault) == NIXU_FAULT && fault == NIXU_TOO_LONG, "the second is not");
  nixu_trace_close(&trace);
}

static void try_no_trace(nixu_trace *trace) {
  static const nixu_entry crash = {NIXU_CRASH, 0, 0, 0, 0, 0, 0};
  nixu_verdict told;
  uint32_t fault = 77;
  size_t needed = 77;
  memset(&told, 0xa5, sizeof told);
  expect(nixu_trace_push(trace, &crash, NULL, 0, &fault) == NIXU_CLOSED, "no trace takes an entry");
  expect(nixu_trace_audit(trace, 1, &told) == NIXU_CLOSED, "no trace has a verdict");
  expect(nixu_trace_text(trace, NULL, 0, &needed) == NIXU_CLOSED, "no trace has a text");
  nixu_trace_close(trace);
  expect(is_filled(&told, sizeof told) && fault == 77 && needed == 77, "nothing was written then");
  expect(!trace->held && !trace->full, "no trace is open");
}

static void try_trace(void) {
  static const nixu_entry crash = {NIXU_CRASH, 0, 0, 0, 0, 0, 255}, other = {NIXU_FORGET + 1, 0, 0, 0, 0, 0, 0};
  static const nixu_determinant listed = {0, 0, 0, 0};
  nixu_trace trace = {0};
  nixu_verdict told;
  uint32_t fault = 77;
  try_no_trace(&trace);
  expect(nixu_trace_open(&trace, 0) == NIXU_MISUSED && nixu_trace_open(&trace, 257) == NIXU_MISUSED, "1 to 256 processes");
  expect(nixu_trace_open(&trace, 256) == NIXU_OK && nixu_trace_open(&trace, 2) == NIXU_MISUSED, "a trace is opened once");
  expect(nixu_trace_push(&trace, &other, NULL, 0, &fault) == NIXU_MISUSED, "no entry has such a kind");
  expect(nixu_trace_push(&trace, &crash, &listed, 1, &fault) == NIXU_MISUSED, "a crash lists nothing");
  expect(fault == 77, "no fault was told");
  expect(nixu_trace_push(&trace, &crash, NULL, 0, &fault) == NIXU_OK && fault == 77, "process 255 crashes");
  expect(nixu_trace_push(&trace, &crash, NULL, 0, &fault) == NIXU_FAULT && fault == NIXU_NOT_UP, "it is down");
  expect(nixu_trace_audit(&trace, 1, &told) == NIXU_OK && told.kind == NIXU_ACCEPTED && told.entries == 1, "one may be down");
  expect(nixu_trace_audit(&trace, 0, &told) == NIXU_OK && told.kind == NIXU_EXCEEDED && told.processes[255], "none may be");
  nixu_trace_close(&trace);
  try_no_trace(&trace);
}

static void try_no_stray(void) {
  nixu_trace trace = {0};
  nixu_stray stray;
  memset(&stray, 0xa5, sizeof stray);
  expect(nixu_trace_replays(&trace, &stray) == NIXU_CLOSED, "no trace is checked");
  expect(is_filled(&stray, sizeof stray), "nothing was written then");
  expect(nixu_replays(NULL, 0, &stray) == NIXU_FAULT, "a text may be empty");
  expect(stray.kind == NIXU_FAULTY && stray.line == 1 && stray.fault == NIXU_CUT && !stray.instant, "it is cut then");
}

/* examples/orphan.jsonl. Below the verdict's line examples/orphan.txt has ten, for one failure. */
static const char ORPHAN[] = "[\"trace\",1,3]\n[\"send\",0,1,0]\n[\"deliver\",1,0,0,[[0,0,1,0]]]\n[\"send\",1,2,0]\n"
                             "[\"deliver\",2,2,0,[[1,0,2,0]]]\n[\"end\",4]\n";

static void expect_facts_of_the_orphan(const nixu_verdict *told, const nixu_fact *facts, size_t needed) {
  static const nixu_fact wanted[] = {
      {.kind = NIXU_FACT_DELIVERY, .delivery = 1, .process = 1},
      {.kind = NIXU_FACT_CAUSE, .entry = 3, .send = 2, .by = NIXU_DELIVER, .process = 2},
      {.kind = NIXU_FACT_UNSTABLE, .instant = 4},
      {.kind = NIXU_FACT_HOLDER, .entry = 1, .process = 1},
      {.kind = NIXU_FACT_CRASH, .process = 1},
      {.kind = NIXU_FACT_CHAIN, .entry = 1, .process = 1},
      {.kind = NIXU_FACT_CHAIN, .entry = 2, .process = 1},
      {.kind = NIXU_FACT_CHAIN, .entry = 3, .process = 2},
      {.kind = NIXU_FACT_UNLISTED, .entry = 3, .send = 2, .process = 2},
      {.kind = NIXU_FACT_ORPHAN, .process = 2},
  };
  enum { FIELDS = offsetof(nixu_fact, source) + 1 };
  expect(told->kind == NIXU_ORPHAN && told->orphan == 2, "process 2 is an orphan");
  expect(needed == sizeof wanted / sizeof *wanted, "it has ten facts");
  for (size_t i = 0; i < sizeof wanted / sizeof *wanted && i < needed; i++)
    expect(!memcmp(&facts[i], &wanted[i], FIELDS), "each fact of an orphan is told");
}

static void try_facts(void) {
  nixu_verdict told;
  nixu_fact facts[16], few[16];
  size_t needed = 77, again = 77;
  const uint8_t *text = (const uint8_t *)ORPHAN;
  expect(nixu_facts(text, sizeof ORPHAN - 1, 1, &told, facts, 16, &needed) == NIXU_OK, "an orphan is explained");
  expect_facts_of_the_orphan(&told, facts, needed);
  for (size_t room = 0; room <= needed + 1; room++) {
    size_t given = (room < needed ? room : needed) * sizeof *facts;
    memset(few, 0xa5, sizeof few);
    expect(nixu_facts(text, sizeof ORPHAN - 1, 1, &told, few, room, &again) == NIXU_OK && again == needed, "any room will do");
    expect(!memcmp(few, facts, given) && is_filled((uint8_t *)few + given, sizeof few - given), "the first facts, and no more");
  }
  expect(nixu_facts(text, sizeof ORPHAN - 1, 1, &told, NULL, 0, &again) == NIXU_OK && again == needed, "no room at all");
  again = 77;
  memset(few, 0xa5, sizeof few);
  expect(nixu_facts(NULL, 0, 1, &told, few, 16, &again) == NIXU_FAULT && told.fault == NIXU_CUT, "an empty text has no facts");
  expect(again == 77 && is_filled(few, sizeof few), "none was written then");
}

static void try_facts_of_a_reader(void) {
  static const uint16_t faults[] = {1};
  nixu_reader reader = {0};
  nixu_verdict told, alone;
  nixu_fact facts[16];
  size_t needed = 77, end = sizeof ORPHAN - 1, header = strlen("[\"trace\",1,3]\n"), last = strlen("[\"end\",4]\n");
  const uint8_t *text = (const uint8_t *)ORPHAN;
  memset(&told, 0xa5, sizeof told);
  expect(nixu_reader_facts(&reader, 1, &told, facts, 16, &needed) == NIXU_CLOSED, "no reader explains");
  expect(nixu_reader_open(&reader) == NIXU_OK && nixu_reader_feed(&reader, text, header - 1, &alone) == NIXU_OK, "a part of a line");
  expect(nixu_reader_facts(&reader, 1, &told, facts, 16, &needed) == NIXU_MISUSED, "the header is not complete");
  expect(needed == 77 && is_filled(&told, sizeof told), "nothing was written then");
  expect(nixu_reader_feed(&reader, text + header - 1, 1, &alone) == NIXU_OK, "its line feed");
  expect(nixu_reader_facts(&reader, 1, &told, facts, 16, &needed) == NIXU_OK, "no entry is explained");
  expect(told.kind == NIXU_ACCEPTED && !told.entries && needed == 1 && facts->kind == NIXU_FACT_NEVER, "no delivery has an orphan");
  expect(nixu_reader_feed(&reader, text + header, end - header - last, &alone) == NIXU_OK, "all entries");
  expect(nixu_reader_facts(&reader, 1, &told, facts, 16, &needed) == NIXU_OK, "they are explained before the end");
  expect_facts_of_the_orphan(&told, facts, needed);
  expect(nixu_reader_feed(&reader, text + end - last, last, &alone) == NIXU_OK, "the end line");
  expect(nixu_reader_facts(&reader, 1, &told, facts, 16, &needed) == NIXU_OK, "they are explained after the end");
  expect_facts_of_the_orphan(&told, facts, needed);
  expect(nixu_reader_finish(&reader, faults, 1, &alone, 1) == NIXU_OK && !memcmp(&alone, &told, sizeof told), "it is open still");
  expect(nixu_reader_facts(&reader, 1, &told, facts, 16, &needed) == NIXU_CLOSED, "it is closed");
}

static void try_facts_of_a_trace(void) {
  static const nixu_entry crash = {NIXU_CRASH, 0, 0, 0, 0, 0, 1};
  nixu_trace trace = {0};
  nixu_verdict told;
  nixu_fact facts[2];
  size_t needed = 77;
  uint32_t fault;
  expect(nixu_trace_facts(&trace, 0, &told, facts, 2, &needed) == NIXU_CLOSED && needed == 77, "no trace explains");
  expect(nixu_trace_open(&trace, 2) == NIXU_OK && nixu_trace_push(&trace, &crash, NULL, 0, &fault) == NIXU_OK, "process 1 crashes");
  expect(nixu_trace_facts(&trace, 0, &told, facts, 2, &needed) == NIXU_OK && needed == 2, "an excess has a cause and who is down");
  expect(facts[0].kind == NIXU_FACT_CAUSE && facts[0].by == NIXU_CRASH && facts[0].process == 1 && !facts[0].entry, "the crash");
  expect(facts[1].kind == NIXU_FACT_DOWN && facts[1].process == 1 && !facts[1].entry, "process 1 is down since it");
  expect(nixu_trace_facts(&trace, 1, &told, facts, 2, &needed) == NIXU_OK && needed == 1, "it is open still");
  expect(facts->kind == NIXU_FACT_NEVER, "and accepted for one failure");
  nixu_trace_close(&trace);
}

/* The recordings of docs/MERGING.md. */
static const char FIRST[] = "[\"recording\",0,1,2,4711]\n[\"send\",0,1764118000000001,1,0]\n";
static const char SECOND[] = "[\"recording\",1,1,2,4711]\n[\"deliver\",1,1764118000000002,0,0,0,0,[[0,0,1,0]]]\n";

static nixu_recording recording_of(const char *text) {
  nixu_recording made = {(const uint8_t *)text, strlen(text)};
  return made;
}

static void try_merge(void) {
  static const char wanted[] = "[\"trace\",1,2]\n[\"send\",0,1,0]\n[\"deliver\",1,0,0,[[0,0,1,0]]]\n[\"end\",2]\n";
  nixu_recording both[] = {recording_of(FIRST), {NULL, 0}, recording_of(SECOND)};
  nixu_merge_fault fault;
  uint8_t out[ROOM];
  size_t needed = 77;
  memset(&fault, 0xa5, sizeof fault);
  for (size_t room = 0; room <= sizeof wanted; room++) {
    size_t given = room < sizeof wanted - 1 ? room : sizeof wanted - 1;
    memset(out, 0xa5, ROOM);
    expect(nixu_merge(both, 3, NIXU_USUAL_ENTRIES, out, room, &needed, &fault) == NIXU_OK, "two recordings merge, in any room");
    expect(needed == sizeof wanted - 1 && !memcmp(out, wanted, given), "into their trace");
    expect(is_filled(out + given, ROOM - given) && is_filled(&fault, sizeof fault), "nothing else was written then");
  }
  needed = 77;
  memset(out, 0xa5, ROOM);
  expect(nixu_merge(both, 3, 0, out, ROOM, &needed, &fault) == NIXU_MISUSED, "a trace may have an entry");
  expect(nixu_merge(both, 3, NIXU_MOST_ENTRIES + 1, out, ROOM, &needed, &fault) == NIXU_MISUSED, "there is a greatest number of entries");
  expect(is_filled(&fault, sizeof fault), "no error was written then");
  expect(nixu_merge(both, 3, 1, out, ROOM, &needed, &fault) == NIXU_FAULT && fault.kind == NIXU_TOO_LONG, "two are more than one");
  expect(fault.recording == 2 && fault.line == 2, "the second line of the last recording is too much");
  expect(needed == 77 && is_filled(out, ROOM), "no byte was written then");
}

static void try_merge_faults(void) {
  nixu_recording one[] = {recording_of(FIRST), {NULL, 0}}, twice[] = {recording_of(FIRST), recording_of(FIRST)};
  nixu_recording unsent[] = {recording_of("[\"recording\",0,1,2,4711]\n"), recording_of(SECOND)};
  nixu_merge_fault fault;
  size_t needed = 77;
  expect(nixu_merge(NULL, 0, 1, NULL, 0, &needed, &fault) == NIXU_FAULT, "no recordings have no header");
  expect(fault.kind == NIXU_NO_HEADER && !fault.recording && fault.line == 1 && !fault.missing[0], "nor is the run known");
  expect(nixu_merge(one, 2, 9, NULL, 0, &needed, &fault) == NIXU_FAULT && fault.kind == NIXU_NO_HEADER, "a recording is missing");
  expect(fault.recording == 1 && fault.line == 1 && fault.missing[1] && !fault.missing[0], "it is that of process 1");
  expect(nixu_merge(twice, 2, 9, NULL, 0, &needed, &fault) == NIXU_FAULT && fault.kind == NIXU_NO_HEADER, "again");
  expect(fault.recording == 1 && fault.line == 3, "the line would come next in the last recording");
  expect(nixu_merge(unsent, 2, 9, NULL, 0, &needed, &fault) == NIXU_FAULT && fault.kind == NIXU_NO_SEND, "there is no such send");
  expect(fault.recording == 1 && fault.line == 2 && fault.process == 1, "process 1 delivers it");
  expect(!fault.source && !fault.lane && !fault.ssn && needed == 77, "it is message 0 of incarnation 0 of process 0");
}

static void try_merge_sentences(void) {
  uint8_t out[ROOM];
  size_t needed = 77;
  for (uint32_t fault = NIXU_AFTER; fault <= NIXU_TWICE; fault++)
    expect(nixu_merge_fault_text(fault, out, ROOM, &needed) == NIXU_OK && needed > 0 && needed < ROOM, "an error has a sentence");
  expect(needed == strlen("another line of this process has the same clock"), "that of Twice");
  needed = 77;
  expect(nixu_merge_fault_text(0, out, ROOM, &needed) == NIXU_MISUSED, "no error has the number 0");
  expect(nixu_merge_fault_text(NIXU_TWICE + 1, out, ROOM, &needed) == NIXU_MISUSED && needed == 77, "no error has the number 23");
}

static void try_long_text(void) {
  nixu_verdict told;
  uint8_t *blank = malloc(LONGEST + 1);
  expect(blank != NULL, "there is memory for a long text");
  if (!blank) return;
  memset(blank, ' ', LONGEST + 1);
  expect(nixu_audit(blank, LONGEST + 1, 1, &told) == NIXU_FAULT && told.fault == NIXU_BIG, "a text is too long");
  expect(nixu_audit(blank, LONGEST, 1, &told) == NIXU_FAULT && told.fault == NIXU_SYNTAX, "a text is as long as it may be");
  free(blank);
}

int main(int argc, char **argv) {
  bytes text = {NULL, 0};
  if (argc > 1) text = read_file(argv[1]);
  if (!text.at) return 1;
  try_no_text();
  try_rooms(text);
  try_faults();
  try_places(text);
  try_reader(text);
  try_trace();
  try_limits_of_a_reader();
  try_limits_of_a_trace();
  try_no_stray();
  try_facts();
  try_facts_of_a_reader();
  try_facts_of_a_trace();
  try_merge();
  try_merge_faults();
  try_merge_sentences();
  if (argc > 2) try_long_text();
  free(text.at);
  printf("%d edges are wrong\n", wrong);
  return wrong != 0;
}
