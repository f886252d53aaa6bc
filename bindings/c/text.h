/* Shared by the programs here: reading a file, and calls of the library that write bytes. */
#ifndef BINDINGS_TEXT_H
#define BINDINGS_TEXT_H

#include "nixu.h"

typedef struct bytes {
  uint8_t *at; /* from malloc; null if the file cannot be read or allocation failed */
  size_t length;
} bytes;

bytes read_file(const char *path);

/* nixu_line, nixu_explain or nixu_draw. */
typedef uint32_t shows(const uint8_t *text, size_t length, uint16_t faults, uint8_t *out, size_t room, size_t *needed);

/* Writes all bytes of the call to `told`; calls again if the first buffer was too small. */
uint32_t shown(shows *call, bytes text, uint16_t faults, bytes *told);

/* Returns the name for an error's number, as the program prints it. */
const char *fault_name(uint32_t fault);

#endif
