#include "text.h"

#include <stdio.h>
#include <stdlib.h>

enum { FIRST_ROOM = 4096 };

bytes read_file(const char *path) {
  bytes read = {NULL, 0};
  size_t room = FIRST_ROOM;
  FILE *file = fopen(path, "rb");
  if (!file) return read;
  read.at = malloc(room);
  while (read.at && (read.length += fread(read.at + read.length, 1, room - read.length, file)) == room) {
    uint8_t *longer = realloc(read.at, room *= 2);
    if (!longer) free(read.at);
    read.at = longer;
  }
  if (read.at && ferror(file)) {
    free(read.at);
    read.at = NULL;
  }
  fclose(file);
  return read;
}

uint32_t shown(shows *call, bytes text, uint16_t faults, bytes *told) {
  size_t needed = FIRST_ROOM, room = 0;
  uint32_t status = NIXU_OK;
  told->at = NULL;
  while (status <= NIXU_FAULT && room < needed) {
    room = needed;
    free(told->at);
    told->at = malloc(room);
    status = told->at ? call(text.at, text.length, faults, told->at, room, &needed) : NIXU_NO_MEMORY;
  }
  told->length = needed;
  return status;
}

const char *fault_name(uint32_t fault) {
  static const char *const names[] = {"?",        "After",     "Big",    "Syntax",   "Form",   "Header", "Version",
                                      "Processes", "TooLong",  "NoProcess", "NotUp", "NotDown", "Lanes", "WrongSsn",
                                      "NoSend",   "WrongRsn",  "Doubled", "Unsorted", "NoDelivery", "Count", "Cut",
                                      "NoHeader", "Twice"};
  return names[fault < sizeof names / sizeof *names ? fault : 0];
}
