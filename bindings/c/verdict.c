/* Prints the line of the verdict on a file, as `causal_tool audit` does, and has its status.

   verdict FAULTS FILE */
#include "text.h"

#include <stdio.h>
#include <stdlib.h>

static int print_line(bytes text, uint16_t faults) {
  nixu_verdict told;
  bytes line;
  uint32_t status = nixu_audit(text.at, text.length, faults, &told);
  if (status <= NIXU_FAULT) status = shown(nixu_line, text, faults, &line);
  if (status > NIXU_FAULT) return 5;
  fwrite(line.at, 1, line.length, stdout);
  free(line.at);
  return told.kind == NIXU_FAULTY ? 2 : told.kind != NIXU_ACCEPTED;
}

int main(int argc, char **argv) {
  char *end = NULL;
  unsigned long faults = argc == 3 ? strtoul(argv[1], &end, 10) : 0;
  if (argc != 3 || *end || faults > UINT16_MAX) {
    fputs("usage: verdict FAULTS FILE\n", stderr);
    return 3;
  }
  bytes text = read_file(argv[2]);
  if (!text.at) {
    perror(argv[2]);
    return 4;
  }
  int status = print_line(text, (uint16_t)faults);
  free(text.at);
  return status;
}
