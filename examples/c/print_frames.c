/* Prints the frames and faults of a stream on standard input, read in pieces of 16 bytes. */
#include <stdio.h>

#include "kirofantse.h"

int main(void) {
  static const char *const faults[] = {"escape", "long", "short", "check", "address"};
  kf_decoder decoder;
  uint8_t buffer[8192], piece[16];
  size_t len;
  kf_decoder_start(&decoder);
  while ((len = fread(piece, 1, sizeof piece, stdin)) > 0) {
    for (size_t at = 0; at < len;) {
      kf_pushed pushed = kf_decoder_push(&decoder, buffer, sizeof buffer, piece + at, len - at);
      if (pushed.kind == KF_FRAME) {
        const uint8_t *payload = (pushed.in_piece ? piece + at : buffer) + pushed.payload_at;
        kf_packet packet;
        printf("frame address %u control %u payload", (unsigned)pushed.address, (unsigned)pushed.control);
        for (size_t i = 0; i < pushed.payload_len; i++) printf(" %02x", payload[i]);
        putchar('\n');
        if (pushed.address == KF_RPC_ADDRESS && kf_packet_read(payload, pushed.payload_len, &packet) == 0)
          printf("  packet type %llu channel %u service %u method %u call %u status %u\n", (unsigned long long)packet.ptype,
                 (unsigned)packet.channel, (unsigned)packet.service, (unsigned)packet.method, (unsigned)packet.call,
                 (unsigned)packet.status);
      } else if (pushed.kind != KF_NOTHING) {
        printf("fault %s\n", faults[pushed.kind - KF_BAD_ESCAPE]);
      }
      at += pushed.taken;
    }
  }
  return 0;
}
