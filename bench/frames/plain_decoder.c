// A plain decoder of frames, one byte at a time: what the measured one is compared with. It checks the same faults
// in the same order, and prints how many frames and faults a stream has and the octets of payload in all.
#include <stdint.h>
#include <stdio.h>
#include <stdlib.h>
#include <string.h>

enum { LIMIT = 8192 };

static uint32_t table[256];

static void make_table(void) {
  for (uint32_t i = 0; i < 256; i++) {
    uint32_t r = i;
    for (int k = 0; k < 8; k++) r = (r & 1) ? (r >> 1) ^ 0xEDB88320u : r >> 1;
    table[i] = r;
  }
}

struct decoder {
  uint8_t content[LIMIT];
  size_t len;
  int begun, some, escaped, bad, is_long;
};

static uint32_t crc(const uint8_t *bytes, size_t len) {
  uint32_t r = 0xFFFFFFFFu;
  for (size_t i = 0; i < len; i++) r = (r >> 8) ^ table[(r ^ bytes[i]) & 0xFF];
  return r ^ 0xFFFFFFFFu;
}

// The octets of payload, or -1 at a fault.
static long judge(const struct decoder *d) {
  if (d->bad || d->escaped || d->is_long || d->len < 6) return -1;
  size_t head = d->len - 4;
  uint32_t check = 0;
  for (int k = 3; k >= 0; k--) check = check << 8 | d->content[head + k];
  if (crc(d->content, head) != check) return -1;
  uint64_t address = 0;
  for (size_t i = 0; i < 5 && i < head; i++) {
    address |= (uint64_t)(d->content[i] >> 1) << (7 * i);
    if (d->content[i] & 1) {
      if (i + 1 >= head || address >> 32) return -1;
      return (long)(head - i - 2);
    }
  }
  return -1;
}

struct counts { unsigned long frames, faults, payload; };

static void push(struct decoder *d, uint8_t byte, struct counts *c) {
  if (byte == 0x7E) {
    if (d->begun && d->some) {
      long payload = judge(d);
      if (payload < 0) c->faults++;
      else { c->frames++; c->payload += (unsigned long)payload; }
    }
    d->begun = 1;
    d->some = d->escaped = d->bad = d->is_long = 0;
    d->len = 0;
    return;
  }
  if (!d->begun || d->bad) { d->some = 1; return; }
  d->some = 1;
  if (byte == 0x7D) {
    if (d->escaped) d->bad = 1;
    else d->escaped = 1;
    return;
  }
  if (d->escaped) { byte ^= 0x20; d->escaped = 0; }
  if (d->len < LIMIT) d->content[d->len++] = byte;
  else d->is_long = 1;
}

int main(int argc, char **argv) {
  if (argc != 4) return 2;
  FILE *file = fopen(argv[2], "rb");
  if (!file) return 2;
  fseek(file, 0, SEEK_END);
  size_t len = (size_t)ftell(file);
  rewind(file);
  uint8_t *stream = malloc(len + 1), *copy = malloc(len + 1);
  if (!stream || !copy || fread(stream, 1, len, file) != len) return 2;
  memset(copy, 1, len);
  long rounds = atol(argv[3]);
  make_table();
  struct counts counts = {0, 0, 0};
  for (long round = 0; round < rounds; round++) {
    if (!strcmp(argv[1], "memcpy")) {
      memcpy(copy, stream, len);
      counts.payload += copy[len / 2];
    } else {
      static struct decoder decoder;
      memset(&decoder, 0, sizeof decoder);
      counts = (struct counts){0, 0, 0};
      for (size_t i = 0; i < len; i++) push(&decoder, stream[i], &counts);
    }
  }
  printf("frames %lu faults %lu payload %lu\n", counts.frames, counts.faults, counts.payload);
  return 0;
}
