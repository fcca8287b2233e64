/*
 * Random packets through the codec: each is written, framed, cut into random pieces, decoded and read again, and must come
 * back as it was; then its frame is damaged, and must not. Prints what it did, so that two builds of the library can be
 * compared. Each block of memory is as long as it is said to be, so that a sanitizer sees each byte outside.
 */
#include <stdio.h>
#include <stdlib.h>
#include <string.h>

#include "kirofantse.h"

static uint64_t state;

static uint32_t next(uint32_t below) {
  state = state * 6364136223846793005u + 1442695040888963407u;
  return (uint32_t)(state >> 33) % below;
}

static uint8_t *room(size_t len) {
  uint8_t *bytes = malloc(len ? len : 1);
  if (!bytes) exit(2);
  return bytes;
}

static void fail(const char *what, unsigned long round) {
  printf("round %lu: %s\n", round, what);
  exit(1);
}

/* A number that is often small, often 0, sometimes any. */
static uint32_t some_number(void) {
  uint32_t kind = next(4);
  return kind == 0 ? 0 : kind == 1 ? next(300) : next(0x40000000) * 4 + next(4);
}

/* Pushes a stream in random pieces, each in a block of its own; counts frames and faults, and keeps the last payload. */
static unsigned decode(const uint8_t *stream, size_t len, uint8_t *buffer, size_t limit, uint8_t *payload, size_t *payload_len,
                       unsigned *faults) {
  kf_decoder decoder;
  unsigned frames = 0;
  kf_decoder_start(&decoder);
  for (size_t at = 0; at < len;) {
    size_t n = 1 + next(next(3) ? 8 : 400);
    if (n > len - at) n = len - at;
    uint8_t *piece = room(n);
    memcpy(piece, stream + at, n);
    for (size_t from = 0; from < n;) {
      kf_pushed pushed = kf_decoder_push(&decoder, buffer, limit, piece + from, n - from);
      if (pushed.kind == KF_FRAME) {
        frames++;
        *payload_len = pushed.payload_len;
        memcpy(payload, (pushed.in_piece ? piece + from : buffer) + pushed.payload_at, pushed.payload_len);
      } else if (pushed.kind != KF_NOTHING) {
        ++*faults;
      }
      from += pushed.taken;
    }
    free(piece);
    at += n;
  }
  return frames;
}

int main(int argc, char **argv) {
  unsigned long rounds = argc > 1 ? strtoul(argv[1], NULL, 10) : 10000;
  unsigned long long bytes = 0, damaged_frames = 0, damaged_faults = 0;
  uint32_t digest = 0;
  state = argc > 2 ? strtoull(argv[2], NULL, 10) : 1;
  for (unsigned long round = 0; round < rounds; round++) {
    size_t len = next(4) ? next(64) : next(2000);
    uint8_t *payload = room(len), *scratch = room(len + 50), *out = room(2 * (len + 50) + 22);
    for (size_t i = 0; i < len; i++) payload[i] = next(3) ? (uint8_t)next(256) : (uint8_t)(0x7d + next(2));
    kf_packet packet = {next(12), 7, 9, some_number(), some_number(), some_number(), some_number(), some_number()};
    uint32_t address = some_number();

    size_t size = kf_packet_write(&packet, payload, len, scratch, len + 50);
    if (size > len + 50) fail("no room for a packet", round);
    if (size && kf_packet_write(&packet, payload, len, scratch, size - 1) != KF_NO_ROOM) fail("a packet in too short a slice", round);
    size_t framed = kf_write_frame(address, &packet, payload, len, scratch, len + 50, out, 2 * (len + 50) + 22);
    if (framed > 2 * (len + 50) + 22) fail("no room for a frame", round);
    uint8_t *same = room(framed);
    if (kf_encode_ui(address, scratch, size, same, framed) != framed || memcmp(same, out, framed)) fail("another frame", round);
    if (kf_encode_ui(address, scratch, size, same, framed - 1) != KF_NO_ROOM) fail("a frame in too short a slice", round);
    free(same);

    size_t limit = size + 10, found_len = 0;
    uint8_t *buffer = room(limit), *found = room(limit);
    unsigned faults = 0;
    if (decode(out, framed, buffer, limit, found, &found_len, &faults) != 1 || faults) fail("not one frame", round);
    if (found_len != size || memcmp(found, scratch, size)) fail("another content", round);
    kf_packet again;
    if (kf_packet_read(found, found_len, &again) != 0) fail("no packet", round);
    if (again.payload_len != len || (len && memcmp(found + again.payload_at, payload, len))) fail("another payload", round);
    if (again.ptype != packet.ptype || again.channel != packet.channel || again.service != packet.service ||
        again.method != packet.method || again.call != packet.call || again.status != packet.status)
      fail("another packet", round);
    digest = digest * 31 + kf_crc32(out, framed);
    bytes += framed;

    size_t at = 1 + next((uint32_t)framed - 2);
    out[at] ^= (uint8_t)(1 + next(255));
    faults = 0;
    found_len = 0;
    if (decode(out, framed, buffer, limit, found, &found_len, &faults) == 1 && found_len == size && !memcmp(found, scratch, size))
      damaged_frames++;
    damaged_faults += faults;
    /* any bytes are taken as a packet or refused, and a refusal touches nothing */
    kf_packet kept = packet;
    if (kf_packet_read(out, framed, &kept) != 0 && memcmp(&kept, &packet, sizeof kept)) fail("a refused packet was touched", round);
    free(payload), free(scratch), free(out), free(buffer), free(found);
  }
  printf("%lu packets, %llu bytes of frames, digest %08x; damaged: %llu faults, %llu came back as they were\n", rounds, bytes,
         (unsigned)digest, damaged_faults, damaged_frames);
  return damaged_frames != 0;
}
