// Decodes the stream in a file by the library in pieces of a given length (0: whole at once), as often as it is told, and
// prints how many frames and faults it has and the octets of payload in all.
#include <stdio.h>
#include <stdlib.h>

#include "kirofantse.h"

int main(int argc, char **argv) {
  if (argc != 4) return 2;
  FILE *file = fopen(argv[2], "rb");
  if (!file) return 2;
  fseek(file, 0, SEEK_END);
  size_t len = (size_t)ftell(file);
  rewind(file);
  uint8_t *stream = malloc(len + 1);
  if (!stream || fread(stream, 1, len, file) != len) return 2;
  size_t piece = strtoul(argv[1], NULL, 10);
  if (piece == 0) piece = len;
  static uint8_t buffer[8192];
  unsigned long frames = 0, faults = 0, payload = 0;
  for (long round = atol(argv[3]); round > 0; round--) {
    kf_decoder decoder;
    kf_decoder_start(&decoder);
    frames = faults = payload = 0;
    for (size_t at = 0; at < len; at += piece) {
      size_t n = len - at < piece ? len - at : piece;
      for (size_t from = 0; from < n;) {
        kf_pushed pushed = kf_decoder_push(&decoder, buffer, sizeof buffer, stream + at + from, n - from);
        from += pushed.taken;
        if (pushed.kind == KF_FRAME) frames++, payload += pushed.payload_len;
        else if (pushed.kind != KF_NOTHING) faults++;
      }
    }
  }
  printf("frames %lu faults %lu payload %lu\n", frames, faults, payload);
  return 0;
}
