/* Does what a file of tasks asks for, and answers in the form that bindings/test compares with the program's answers.

   client TASKS    each line of TASKS is "WORD FAULTS PATH"; for each task "LENGTH\n" and that many bytes are printed

   The words: line, explain, draw: what the call gives; audit: the verdict's line out of the struct; each: the lines for 0, 1, 2, 3
   faults of a text that is read once; fed: as audit, of the text in pieces of many lengths; sentence: that of the text's fault,
   empty where it has none; facts: the lines of explain without their sentences, out of the structs; merge: of recordings, in pieces
   of some bytes; entries: of a file of entries (entries.h), the verdict's line, the stray, the facts, and the text of the trace. */
#include "entries.h"
#include "text.h"

#include <stdarg.h>
#include <stdio.h>
#include <stdlib.h>
#include <string.h>

enum { MOST = 8192, LONGEST = 1 << 16, FAULTS = 4, FACTS = 512, PIECE = 37 };

typedef struct answer {
  char at[LONGEST];
  size_t length;
} answer;

static void say(answer *to, const char *form, ...) {
  va_list given;
  va_start(given, form);
  to->length += (size_t)vsnprintf(to->at + to->length, LONGEST - to->length, form, given);
  va_end(given);
}

static void say_set(answer *to, const nixu_verdict *told) {
  const char *before = "";
  for (int p = 0; p < 256; p++)
    if (told->processes[p]) {
      say(to, "%s%d", before, p);
      before = ",";
    }
  if (!*before) say(to, "-");
}

static void say_verdict(answer *to, const nixu_verdict *told, unsigned f) {
  switch (told->kind) {
  case NIXU_ACCEPTED:
    say(to, "accept f=%u entries=%u deliveries=%u\n", f, told->entries, told->deliveries);
    break;
  case NIXU_EXCEEDED:
    say(to, "exceeded f=%u instant=%u down=", f, told->instant);
    say_set(to, told);
    say(to, "\n");
    break;
  case NIXU_ORPHAN:
    say(to, "orphan f=%u instant=%u delivery=%u crash=", f, told->instant, told->delivery);
    say_set(to, told);
    say(to, " orphan=%u\n", told->orphan);
    break;
  default:
    say(to, "fault line=%u %s\n", told->line, fault_name(told->fault));
  }
}

static uint32_t audit(answer *to, bytes text, uint16_t faults) {
  nixu_verdict told;
  uint32_t status = nixu_audit(text.at, text.length, faults, &told);
  if (status <= NIXU_FAULT) say_verdict(to, &told, faults);
  return status;
}

static uint32_t audit_each(answer *to, bytes text) {
  static const uint16_t faults[FAULTS] = {0, 1, 2, 3};
  nixu_verdict told[FAULTS];
  uint32_t status = nixu_audit_each(text.at, text.length, faults, FAULTS, told, FAULTS);
  for (int i = 0; i < FAULTS && status <= NIXU_FAULT; i++) say_verdict(to, &told[i], faults[i]);
  return status;
}

/* A length of a piece, from 0 to 63, of which the next one follows. */
static size_t next_length(uint32_t *from) {
  *from = *from * 1103515245u + 12345u;
  return *from >> 16 & 63u;
}

static uint32_t fed(answer *to, bytes text, uint16_t faults) {
  nixu_reader reader = {0};
  nixu_verdict told;
  uint32_t from = (uint32_t)text.length, status = nixu_reader_open(&reader);
  for (size_t at = 0, length; status == NIXU_OK && at < text.length; at += length) {
    length = next_length(&from);
    if (length > text.length - at) length = text.length - at;
    status = nixu_reader_feed(&reader, text.at + at, length, &told);
  }
  if (status == NIXU_OK) status = nixu_reader_finish(&reader, &faults, 1, &told, 1);
  nixu_reader_close(&reader);
  if (status <= NIXU_FAULT) say_verdict(to, &told, faults);
  return status;
}

static void say_stray(answer *to, const nixu_stray *stray) {
  if (stray->kind == NIXU_FOLLOWED) say(to, "followed\n");
  else if (stray->kind == NIXU_FAULTY) say(to, "fault line=%u %s\n", (unsigned)stray->line, fault_name(stray->fault));
  else
    say(to, "strayed instant=%u process=%u rsn=%u first=%u second=%u\n", (unsigned)stray->instant, (unsigned)stray->process,
        (unsigned)stray->rsn, (unsigned)stray->first, (unsigned)stray->second);
}

static uint32_t replays(answer *to, bytes text) {
  nixu_stray stray;
  uint32_t status = nixu_replays(text.at, text.length, &stray);
  if (status <= NIXU_FAULT) say_stray(to, &stray);
  return status;
}

static const char *deed(uint32_t by) {
  return by == NIXU_DELIVER ? "deliver" : by == NIXU_CRASH ? "crash" : by == NIXU_RESTART ? "restart" : "forget";
}

/* The line of a fact about the breach, with the numbers of lines in place of positions. */
static void say_breach_fact(answer *to, const nixu_fact *fact) {
  unsigned line = fact->entry + 2, send = fact->send + 2, process = fact->process;
  switch (fact->kind) {
  case NIXU_FACT_DELIVERY:
    say(to, "delivery line=%u process=%u source=%u ssn=%u rsn=%u\n", (unsigned)fact->delivery + 2, process, (unsigned)fact->source,
        (unsigned)fact->ssn, (unsigned)fact->rsn);
    break;
  case NIXU_FACT_UNSTABLE: say(to, "unstable line=%u\n", (unsigned)fact->instant + 1); break;
  case NIXU_FACT_HOLDER: say(to, "holder process=%u line=%u\n", process, line); break;
  case NIXU_FACT_NO_HOLDER: say(to, "holder process=-\n"); break;
  case NIXU_FACT_LOSS: say(to, "loss process=%u line=%u by=%s\n", process, line, deed(fact->by)); break;
  case NIXU_FACT_CRASH: say(to, "crash process=%u\n", process); break;
  case NIXU_FACT_CHAIN: say(to, "chain line=%u process=%u\n", line, process); break;
  case NIXU_FACT_UNLISTED: say(to, "unlisted line=%u send=%u process=%u\n", line, send, process); break;
  case NIXU_FACT_LISTED: say(to, "listed\n"); break;
  case NIXU_FACT_UNDERWAY: say(to, "underway send=%u line=%u process=%u\n", send, line, process); break;
  case NIXU_FACT_ORPHAN: say(to, "orphan process=%u\n", process); break;
  default: say(to, "no fact has the kind %u\n", (unsigned)fact->kind);
  }
}

static void say_fact(answer *to, const nixu_fact *fact) {
  unsigned line = fact->entry + 2, process = fact->process, delivery = fact->delivery;
  switch (fact->kind) {
  case NIXU_FACT_DOWN: say(to, "down process=%u line=%u\n", process, line); break;
  case NIXU_FACT_CAUSE: say(to, "cause line=%u process=%u by=%s\n", line, process, deed(fact->by)); break;
  case NIXU_FACT_CLOSEST:
    say(to, "closest faults=%u line=%u until=%u orphan=%u\n", (unsigned)fact->faults, delivery + 2, (unsigned)fact->instant + 1, process);
    break;
  case NIXU_FACT_NEVER: say(to, "closest faults=-\n"); break;
  case NIXU_FACT_STRAYED:
    say(to, "strayed instant=%u process=%u rsn=%u first=%u second=%u\n", (unsigned)fact->instant, process, (unsigned)fact->rsn, delivery,
        (unsigned)fact->second);
    break;
  case NIXU_FACT_LOGGED: say(to, "logged delivery=%u process=%u line=%u\n", delivery, process, line); break;
  case NIXU_FACT_STABLE: say(to, "stable delivery=%u\n", delivery); break;
  default: say_breach_fact(to, fact);
  }
}

static uint32_t say_facts(answer *to, uint32_t status, const nixu_verdict *told, const nixu_fact *facts, size_t count, uint16_t faults) {
  if (count > FACTS) return NIXU_MISUSED;
  if (status <= NIXU_FAULT) say_verdict(to, told, faults);
  for (size_t i = 0; status == NIXU_OK && i < count; i++) say_fact(to, &facts[i]);
  return status;
}

static uint32_t facts(answer *to, bytes text, uint16_t faults) {
  nixu_verdict told;
  nixu_fact found[FACTS];
  size_t needed = 0;
  uint32_t status = nixu_facts(text.at, text.length, faults, &told, found, FACTS, &needed);
  return say_facts(to, status, &told, found, needed, faults);
}

/* The line of an error, counted over all recordings. */
static unsigned line_over_all(const nixu_merge_fault *fault, bytes text) {
  unsigned line = fault->line;
  for (size_t i = 0; i < fault->recording * PIECE; i++) line += text.at[i] == '\n';
  return line;
}

/* Recordings that are cut anywhere, into pieces of some bytes. */
static uint32_t merge(bytes text, answer *to) {
  size_t count = text.length / PIECE + 1, needed = 0;
  nixu_recording *pieces = malloc(count * sizeof *pieces);
  nixu_merge_fault fault;
  if (!pieces) return NIXU_NO_MEMORY;
  for (size_t i = 0; i < count; i++) {
    pieces[i].text = text.at + i * PIECE;
    pieces[i].length = i + 1 < count ? PIECE : text.length % PIECE;
  }
  uint32_t status = nixu_merge(pieces, count, NIXU_USUAL_ENTRIES, (uint8_t *)to->at, LONGEST, &needed, &fault);
  free(pieces);
  if (status == NIXU_OK) to->length = needed;
  if (status == NIXU_FAULT) say(to, "fault line=%u %s\n", line_over_all(&fault, text), fault_name(fault.kind));
  return status;
}

static uint32_t sentence(answer *to, bytes text, uint16_t faults) {
  nixu_verdict told;
  uint32_t status = nixu_audit(text.at, text.length, faults, &told);
  return status == NIXU_FAULT ? nixu_fault_text(told.fault, (uint8_t *)to->at, LONGEST, &to->length) : status;
}

static shows *call_of(const char *word) {
  if (!strcmp(word, "line")) return nixu_line;
  if (!strcmp(word, "explain")) return nixu_explain;
  return strcmp(word, "draw") ? NULL : nixu_draw;
}

static void print(const void *at, size_t length) {
  printf("%zu\n", length);
  fwrite(at, 1, length, stdout);
}

/* The text of a trace, behind what has been said of it. */
static uint32_t print_trace(nixu_trace *trace, const answer *said) {
  size_t needed = 0, written;
  uint32_t status = nixu_trace_text(trace, NULL, 0, &needed);
  uint8_t *text = malloc(needed + 1);
  if (!text) return NIXU_NO_MEMORY;
  if (status == NIXU_OK) status = nixu_trace_text(trace, text, needed, &written);
  printf("%zu\n%s", said->length + needed, said->at);
  fwrite(text, 1, needed, stdout);
  free(text);
  return status;
}

/* Where something stands against an entry, that is told at the line on which it would stand. */
static uint32_t print_recording(nixu_trace *trace, const recording *all, uint16_t faults) {
  answer told = {"", 0};
  nixu_verdict verdict;
  nixu_stray stray;
  nixu_fact found[FACTS];
  size_t at, needed = 0;
  uint32_t fault, status = push_all(trace, all, &at, &fault, NULL);
  if (status == NIXU_FAULT) {
    say(&told, "fault line=%zu %s\n", at + 2, fault_name(fault));
    print(told.at, told.length);
  }
  if (status == NIXU_OK) status = nixu_trace_audit(trace, faults, &verdict);
  if (status == NIXU_OK) status = nixu_trace_replays(trace, &stray);
  if (status != NIXU_OK) return status;
  say_verdict(&told, &verdict, faults);
  say_stray(&told, &stray);
  status = nixu_trace_facts(trace, faults, &verdict, found, FACTS, &needed);
  if (say_facts(&told, status, &verdict, found, needed, faults) != NIXU_OK) return status ? status : NIXU_MISUSED;
  return print_trace(trace, &told);
}

static uint32_t print_entries(const char *path, uint16_t faults) {
  nixu_trace trace = {0};
  recording all;
  uint32_t status = NIXU_MISUSED;
  if (read_recording(path, &all) && (status = nixu_trace_open(&trace, all.processes)) == NIXU_OK)
    status = print_recording(&trace, &all, faults);
  nixu_trace_close(&trace);
  free_recording(&all);
  return status;
}

static uint32_t print_task(const char *word, bytes text, uint16_t faults) {
  answer told = {"", 0};
  bytes all;
  shows *call = call_of(word);
  uint32_t status;
  if (call) {
    status = shown(call, text, faults, &all);
    print(all.at, all.length);
    free(all.at);
    return status;
  }
  if (!strcmp(word, "audit")) status = audit(&told, text, faults);
  else if (!strcmp(word, "each")) status = audit_each(&told, text);
  else if (!strcmp(word, "fed")) status = fed(&told, text, faults);
  else if (!strcmp(word, "replays")) status = replays(&told, text);
  else if (!strcmp(word, "facts")) status = facts(&told, text, faults);
  else if (!strcmp(word, "merge")) status = merge(text, &told);
  else status = sentence(&told, text, faults);
  print(told.at, told.length);
  return status;
}

int main(int argc, char **argv) {
  char word[16], path[MOST];
  unsigned faults;
  FILE *tasks = argc == 2 ? fopen(argv[1], "r") : NULL;
  int wrong = !tasks || nixu_version() != NIXU_VERSION;
  while (!wrong && fscanf(tasks, "%15s %u %8191[^\n]", word, &faults, path) == 3) {
    if (!strcmp(word, "entries")) {
      wrong = print_entries(path, (uint16_t)faults) > NIXU_FAULT;
      continue;
    }
    bytes text = read_file(path);
    wrong = !text.at || print_task(word, text, (uint16_t)faults) > NIXU_FAULT;
    free(text.at);
  }
  if (tasks) fclose(tasks);
  return wrong;
}
