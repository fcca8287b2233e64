/*
 * The codec of this repository for C99 and C++: check sequences, frames after pw_hdlc, packets of pw_rpc.
 *
 * The library is libc_codec.a, whose every function is proved (docs/PROOFS.md, c_codec). It allocates nothing, keeps
 * nothing between two calls and takes any bytes. docs/C.md says how to build it.
 *
 * What the caller owes, since nothing can check it:
 * - No pointer is NULL, not even one whose length is 0. Each is good for as many bytes as its length says.
 * - What a function writes (a decoder, a buffer, `out`, `scratch`, a packet that is read) overlaps no other argument.
 * - A decoder and its buffer belong together: the same two, with the buffer's same length, at each push, and nobody else
 *   writes to them in between. (If somebody does, what is found is that of another stream, and still nothing is read or
 *   written outside of them.)
 * - One call at a time on one decoder. Calls on different ones may run at once.
 */
#ifndef KIROFANTSE_H
#define KIROFANTSE_H

#include <stdbool.h>
#include <stddef.h>
#include <stdint.h>

#ifdef __cplusplus
extern "C" {
#endif

/* The answer of a writer whose room is too short. What it wrote until then stands in `out`. */
#define KF_NO_ROOM SIZE_MAX

/* The address of frames that carry packets. */
#define KF_RPC_ADDRESS 82u

/* The check sequence of some bytes: the CRC-32 of Ethernet, of zlib and of pw_hdlc. */
uint32_t kf_crc32(const uint8_t *bytes, size_t len);

/* A decoder of a stream, made by kf_decoder_start. Its fields are its own affair. */
typedef struct kf_decoder {
  size_t len;
  uint8_t phase;
  uint8_t is_long;
} kf_decoder;

/* What the segment carries that ended: the first fault that applies, or a frame. */
enum {
  KF_NOTHING = 0,     /* no segment ended: the whole piece was taken */
  KF_FRAME = 1,
  KF_BAD_ESCAPE = 2,  /* an escape in front of another one, or of the closing flag */
  KF_BAD_LONG = 3,    /* a content longer than the buffer */
  KF_BAD_SHORT = 4,   /* a content of fewer than 6 bytes */
  KF_BAD_CHECK = 5,   /* a wrong check sequence */
  KF_BAD_ADDRESS = 6  /* no address and control octet, an address of more than five octets, or of 2^32 or more */
};

typedef struct kf_pushed {
  size_t taken;        /* bytes of the piece that were taken; push the others next */
  size_t payload_at;   /* of a frame: its payload lies at buffer + payload_at, or at piece + payload_at */
  size_t payload_len;
  uint32_t address;    /* of a frame */
  uint8_t kind;        /* KF_NOTHING, KF_FRAME or KF_BAD_.. */
  uint8_t control;     /* of a frame: 3 in an unnumbered information frame */
  bool in_piece;       /* of a frame: whether its payload lies in the piece; else it lies in the buffer */
} kf_pushed;

/* Makes a decoder that has read nothing. */
void kf_decoder_start(kf_decoder *decoder);

/*
 * Takes bytes up to and with the first flag that ends a segment, else the whole piece. The buffer's length is the limit of
 * a content: address, control octet, payload and the four bytes of the check sequence. A payload that lies in the buffer
 * stays there until the next push.
 */
kf_pushed kf_decoder_push(kf_decoder *decoder, uint8_t *buffer, size_t buffer_len, const uint8_t *piece, size_t piece_len);

/*
 * Writes an unnumbered information frame to the front of `out`, both flags with it. Answers its length, or KF_NO_ROOM. It
 * has at most 22 bytes more than twice those of its payload.
 */
size_t kf_encode_ui(uint32_t address, const uint8_t *payload, size_t payload_len, uint8_t *out, size_t out_len);

/* A packet of pw_rpc. */
typedef struct kf_packet {
  uint64_t ptype;      /* 0 REQUEST, 1 RESPONSE, 2 CLIENT_STREAM, 4 CLIENT_ERROR, 5 SERVER_ERROR, 7 SERVER_STREAM,
                          8 CLIENT_REQUEST_COMPLETION; other numbers are read too */
  size_t payload_at;   /* of a packet that was read: its payload lies at bytes + payload_at */
  size_t payload_len;
  uint32_t channel;
  uint32_t service;
  uint32_t method;
  uint32_t call;
  uint32_t status;
} kf_packet;

/* Reads the packet in some bytes. Answers 0, or 1 where they are none: *packet is then as it was. */
uint8_t kf_packet_read(const uint8_t *bytes, size_t len, kf_packet *packet);

/*
 * Writes the one spelling of a packet to the front of `out`: its fields by rising number, those that are 0 or empty left
 * out. The payload is the one given here: payload_at and payload_len of *packet don't count. Answers the length, which is
 * 0 where there is nothing to say, or KF_NO_ROOM. It has at most 50 bytes more than its payload.
 */
size_t kf_packet_write(const kf_packet *packet, const uint8_t *payload, size_t payload_len, uint8_t *out, size_t out_len);

/* Writes a frame that carries a packet. `scratch` is room for the packet's own bytes. Answers the frame's length, or
   KF_NO_ROOM where `scratch` or `out` is too short. */
size_t kf_write_frame(uint32_t address, const kf_packet *packet, const uint8_t *payload, size_t payload_len,
                      uint8_t *scratch, size_t scratch_len, uint8_t *out, size_t out_len);

/* The library takes size_t as 64 bits: x86-64 and 64-bit ARM. */
#if defined(__cplusplus)
#if __cplusplus >= 201103L
#define KF_STATIC_ASSERT(condition, name) static_assert(condition, #name)
#endif
#elif defined(__STDC_VERSION__) && __STDC_VERSION__ >= 201112L
#define KF_STATIC_ASSERT(condition, name) _Static_assert(condition, #name)
#endif
#ifndef KF_STATIC_ASSERT
#define KF_STATIC_ASSERT(condition, name) typedef char kf_static_assert_##name[(condition) ? 1 : -1]
#endif
KF_STATIC_ASSERT(sizeof(size_t) == 8, size_t_has_64_bits);
KF_STATIC_ASSERT(sizeof(kf_decoder) == 16, kf_decoder_has_16_bytes);
KF_STATIC_ASSERT(sizeof(kf_pushed) == 32, kf_pushed_has_32_bytes);
KF_STATIC_ASSERT(sizeof(kf_packet) == 48, kf_packet_has_48_bytes);

#ifdef __cplusplus
}
#endif

#endif
