/* Puts commands into a ring, a call each, and records them: the second part of zorvleid_record.h.
 *
 *   zv_stream(&script, ZV_NORMAL, 64);
 *   zv_ring_begin(&ring, &script, entries, 64);
 *   zv_create_image(&ring, 1, 4, 4);
 *   zv_clear_rect(&ring, 1, 0, 0, 4, 4, 0xd9534fff);
 *   zv_ring_flush(&ring, NULL, 0, &action);         and then the service is told of ring.place
 *   ..                                              the client waits until the service has finished
 *   zv_ring_finish(&ring);
 *
 * docs/FORMATS.md has the commands, and examples/record a client that uses this file. Nothing is allocated: the entries of
 * the ring are the caller's, as the words that it shares with a service.
 *
 * A command goes after the one before it. Where it does not fit before the end of the ring, a Noop fills the end, and the
 * command goes to 0. It overwrites no entry that the service may still read, and the ring hands over less than all of its
 * entries at once.
 *
 * Each call returns 0 or an errno, as those of the first part do, and one more:
 *   EAGAIN   there is no room before the service has read more: flush, wait, and call zv_ring_finish or zv_ring_read
 *   ERANGE   the command can have no room, together with the Noop that would fill the end of the ring: first fill the end
 *            with zv_noop(&ring, ring.size - ring.place), flush and wait; or the recorder returns it
 * After a fault nothing was put. Where the sink fails while a command is put, the command is there, and the fault is
 * returned. A recorder with a fault puts nothing more: to go on without a record, set `script` of the ring to NULL.
 */
#ifndef ZORVLEID_RING_H
#define ZORVLEID_RING_H

#include "zorvleid_record.h"

#ifdef __cplusplus
extern "C" {
#endif

/* --- Headers of commands --- */

typedef enum zv_command {
    ZV_NOOP,
    ZV_SET_TOKEN,
    ZV_SET_BUCKET_SIZE,
    ZV_SET_BUCKET_DATA,
    ZV_SET_BUCKET_DATA_IMMEDIATE,
    ZV_GET_BUCKET_START,
    ZV_GET_BUCKET_DATA,
    ZV_INSERT_FENCE = 256,
    ZV_WAIT_TOKEN,
    ZV_CREATE_IMAGE,
    ZV_DELETE_IMAGE,
    ZV_CLEAR_RECT,
    ZV_COPY_RECT,
    ZV_UPLOAD_RECT,
    ZV_UPLOAD_BUCKET,
    ZV_CREATE_BUFFER,
    ZV_DELETE_BUFFER,
    ZV_BUFFER_DATA,
    ZV_UPLOAD_BUFFER,
    ZV_WAIT_SYNC_TOKEN
} zv_command;

typedef enum zv_format { ZV_RGBA8 = 1, ZV_RGB565, ZV_RGBA4444, ZV_L8 } zv_format;

enum { ZV_SIZE_BITS = 21 };

/* The first entry of a command, whose size counts this entry too. */
static inline uint32_t zv_header(zv_command id, uint32_t size)
{
    return ((uint32_t)id << ZV_SIZE_BITS) + size;
}

static inline uint32_t zv_id_of(uint32_t header)
{
    return header >> ZV_SIZE_BITS;
}

static inline uint32_t zv_size_of(uint32_t header)
{
    return header & ((1u << ZV_SIZE_BITS) - 1);
}

/* --- The ring --- */

/* A ring as its client writes it. The caller may read the fields, and set `script`. */
typedef struct zv_ring {
    zv_script *script;          /* records what is put; NULL where nothing is recorded */
    volatile uint32_t *entries; /* what the client shares with the service */
    uint32_t size, place;       /* how many entries there are, and where the next command goes */
    uint32_t handed, freed;     /* up to where they were flushed, and up to where the service has read them */
} zv_ring;

/* Begins the ring of the last stream of a recorder, where there is one. Both have to have as many entries. A ring that does
 * not begin has no room. */
static inline int zv_ring_begin(zv_ring *ring, zv_script *script, volatile uint32_t *entries, uint32_t size)
{
    ring->script = script;
    ring->entries = entries;
    ring->size = ring->place = ring->handed = ring->freed = 0;
    if (entries == NULL || (script != NULL && script->ring != size))
        return EINVAL;
    if (size < 16 || size > 4096)
        return ERANGE;
    ring->size = size;
    return 0;
}

/* How many entries stand from a place of the ring up to another one. */
static inline uint32_t zv_ring_between(const zv_ring *ring, uint32_t from, uint32_t to)
{
    return (to + ring->size - from) % ring->size;
}

/* Stores words where the next command goes. They are recorded first. */
static inline int zv_ring_store(zv_ring *ring, const uint32_t *words, uint32_t count)
{
    int fault = ring->script == NULL ? 0 : zv_put(ring->script, ring->place, words, count);
    uint32_t at;
    for (at = 0; at < count; at++)
        ring->entries[ring->place + at] = words[at];
    ring->place = (ring->place + count) % ring->size;
    return fault;
}

/* Makes room for a command, of which some words are stored, and fills the end of the ring where it does not fit there. */
static inline int zv_ring_room(zv_ring *ring, uint32_t size, uint32_t stored)
{
    uint32_t left = ring->size - ring->place, filled = size > left ? left : 0;
    int fault;
    if (size == 0 || size >= ring->size || filled + size >= ring->size)
        return ERANGE;
    if (zv_ring_between(ring, ring->freed, ring->place) + filled + size >= ring->size)
        return EAGAIN;
    fault = ring->script == NULL ? 0 : zv_may_act(ring->script, (size_t)stored + (filled != 0));
    if (fault == 0 && filled != 0) {
        (void)zv_ring_store(ring, &filled, 1); /* the header of a Noop is its size; a fault sticks, so the next call has it */
        ring->place = 0;
    }
    return fault;
}

/* Puts all words of a command. */
static inline int zv_ring_put(zv_ring *ring, const uint32_t *words, uint32_t count)
{
    int fault = zv_ring_room(ring, count, count);
    return fault == 0 ? zv_ring_store(ring, words, count) : fault;
}

/* Hands over what was put since the last flush, after fences, as zv_flush does. The service is told of `place` then. */
static inline int zv_ring_flush(zv_ring *ring, const zv_fence *fences, size_t count, uint32_t *action)
{
    int fault = ring->script == NULL ? 0 : zv_flush(ring->script, ring->place, fences, count, action);
    if (fault == 0)
        ring->handed = ring->place;
    return fault;
}

/* The client has waited until all that it flushed is finished. */
static inline int zv_ring_finish(zv_ring *ring)
{
    int fault = ring->script == NULL ? 0 : zv_finish(ring->script);
    if (fault == 0)
        ring->freed = ring->handed;
    return fault;
}

/* The service has read the entries before a place, as a client knows that has waited by zv_token. */
static inline int zv_ring_read(zv_ring *ring, uint32_t place)
{
    if (place >= ring->size ||
        zv_ring_between(ring, ring->freed, place) > zv_ring_between(ring, ring->freed, ring->handed))
        return EINVAL;
    ring->freed = place;
    return 0;
}

/* --- Commands --- */

/* Does nothing, and fills `size` entries. Those after the first keep their words. */
static inline int zv_noop(zv_ring *ring, uint32_t size)
{
    uint32_t header = zv_header(ZV_NOOP, size);
    int fault = zv_ring_room(ring, size, 1);
    if (fault != 0)
        return fault;
    fault = zv_ring_store(ring, &header, 1);
    ring->place = (ring->place + size - 1) % ring->size;
    return fault;
}

/* Writes bytes of the command itself into a bucket. */
static inline int zv_set_bucket_data_immediate(zv_ring *ring, uint32_t bucket, uint32_t offset, const void *data,
                                               uint32_t size)
{
    const unsigned char *bytes = (const unsigned char *)data;
    uint32_t count = size / 4 + (size % 4 != 0), at;
    uint32_t words[16];
    int fault = data == NULL && size != 0 ? EINVAL : zv_ring_room(ring, 4 + count, 4 + count);
    if (fault != 0)
        return fault;
    words[0] = zv_header(ZV_SET_BUCKET_DATA_IMMEDIATE, 4 + count);
    words[1] = bucket;
    words[2] = offset;
    words[3] = size;
    fault = zv_ring_store(ring, words, 4);
    for (at = 0; at < size; at++) {
        words[at / 4 % 16] = (at % 4 == 0 ? 0 : words[at / 4 % 16]) | (uint32_t)bytes[at] << 8 * (at % 4);
        if (at % 64 == 63 || at + 1 == size)
            fault = zv_ring_store(ring, words, at / 4 % 16 + 1);
    }
    return fault;
}

/* Sets the token of the stream, which zv_token waits for. */
static inline int zv_set_token(zv_ring *ring, uint32_t token)
{
    const uint32_t words[] = {zv_header(ZV_SET_TOKEN, 2), token};
    return zv_ring_put(ring, words, 2);
}

/* Makes a bucket of zero bytes, unless it has this size already. */
static inline int zv_set_bucket_size(zv_ring *ring, uint32_t bucket, uint32_t size)
{
    const uint32_t words[] = {zv_header(ZV_SET_BUCKET_SIZE, 3), bucket, size};
    return zv_ring_put(ring, words, 3);
}

/* Writes bytes of a transfer memory into a bucket. */
static inline int zv_set_bucket_data(zv_ring *ring, uint32_t bucket, uint32_t offset, uint32_t size, uint32_t memory,
                                     uint32_t memory_offset)
{
    const uint32_t words[] = {zv_header(ZV_SET_BUCKET_DATA, 6), bucket, offset, size, memory, memory_offset};
    return zv_ring_put(ring, words, 6);
}

/* Writes the size of a bucket, and then at most data_size of its first bytes, into result memories. */
static inline int zv_get_bucket_start(zv_ring *ring, uint32_t bucket, uint32_t result_memory, uint32_t result_offset,
                                      uint32_t data_size, uint32_t data_memory, uint32_t data_offset)
{
    const uint32_t words[] = {zv_header(ZV_GET_BUCKET_START, 7), bucket, result_memory, result_offset, data_size,
                              data_memory, data_offset};
    return zv_ring_put(ring, words, 7);
}

/* Writes bytes of a bucket into a result memory. */
static inline int zv_get_bucket_data(zv_ring *ring, uint32_t bucket, uint32_t offset, uint32_t size, uint32_t memory,
                                     uint32_t memory_offset)
{
    const uint32_t words[] = {zv_header(ZV_GET_BUCKET_DATA, 6), bucket, offset, size, memory, memory_offset};
    return zv_ring_put(ring, words, 6);
}

/* Raises the release count of the stream. */
static inline int zv_insert_fence(zv_ring *ring, uint64_t release)
{
    const uint32_t words[] = {zv_header(ZV_INSERT_FENCE, 3), (uint32_t)release, (uint32_t)(release >> 32)};
    return zv_ring_put(ring, words, 3);
}

/* Waits until another stream has come to a release. */
static inline int zv_wait_token(zv_ring *ring, uint32_t stream, uint64_t release)
{
    const uint32_t words[] = {zv_header(ZV_WAIT_TOKEN, 4), stream, (uint32_t)release, (uint32_t)(release >> 32)};
    return zv_ring_put(ring, words, 4);
}

/* Makes an image of zero texels. */
static inline int zv_create_image(zv_ring *ring, uint32_t image, uint32_t width, uint32_t height)
{
    const uint32_t words[] = {zv_header(ZV_CREATE_IMAGE, 4), image, width, height};
    return zv_ring_put(ring, words, 4);
}

/* Takes an image away. */
static inline int zv_delete_image(zv_ring *ring, uint32_t image)
{
    const uint32_t words[] = {zv_header(ZV_DELETE_IMAGE, 2), image};
    return zv_ring_put(ring, words, 2);
}

/* Sets all texels of a rectangle to one, which has red in its highest byte. */
static inline int zv_clear_rect(zv_ring *ring, uint32_t image, uint32_t x, uint32_t y, uint32_t w, uint32_t h,
                                uint32_t texel)
{
    const uint32_t words[] = {zv_header(ZV_CLEAR_RECT, 7), image, x, y, w, h, texel};
    return zv_ring_put(ring, words, 7);
}

/* Copies a rectangle at (x, y) of an image to (x2, y2) of another or of the same. */
static inline int zv_copy_rect(zv_ring *ring, uint32_t source, uint32_t x, uint32_t y, uint32_t target, uint32_t x2,
                               uint32_t y2, uint32_t w, uint32_t h)
{
    const uint32_t words[] = {zv_header(ZV_COPY_RECT, 9), source, x, y, target, x2, y2, w, h};
    return zv_ring_put(ring, words, 9);
}

/* Sets the texels of a rectangle from bytes of a transfer memory. */
static inline int zv_upload_rect(zv_ring *ring, uint32_t image, uint32_t x, uint32_t y, uint32_t w, uint32_t h,
                                 zv_format format, uint32_t memory, uint32_t memory_offset)
{
    const uint32_t words[] = {zv_header(ZV_UPLOAD_RECT, 9), image, x, y, w, h, (uint32_t)format, memory, memory_offset};
    return zv_ring_put(ring, words, 9);
}

/* Sets the texels of a rectangle from the first bytes of a bucket. */
static inline int zv_upload_bucket(zv_ring *ring, uint32_t image, uint32_t x, uint32_t y, uint32_t w, uint32_t h,
                                   zv_format format, uint32_t bucket)
{
    const uint32_t words[] = {zv_header(ZV_UPLOAD_BUCKET, 8), image, x, y, w, h, (uint32_t)format, bucket};
    return zv_ring_put(ring, words, 8);
}

/* Makes a buffer of zero bytes. */
static inline int zv_create_buffer(zv_ring *ring, uint32_t buffer, uint32_t size)
{
    const uint32_t words[] = {zv_header(ZV_CREATE_BUFFER, 3), buffer, size};
    return zv_ring_put(ring, words, 3);
}

/* Takes a buffer away. */
static inline int zv_delete_buffer(zv_ring *ring, uint32_t buffer)
{
    const uint32_t words[] = {zv_header(ZV_DELETE_BUFFER, 2), buffer};
    return zv_ring_put(ring, words, 2);
}

/* Writes bytes of a transfer memory into a buffer. */
static inline int zv_buffer_data(zv_ring *ring, uint32_t buffer, uint32_t offset, uint32_t size, uint32_t memory,
                                 uint32_t memory_offset)
{
    const uint32_t words[] = {zv_header(ZV_BUFFER_DATA, 6), buffer, offset, size, memory, memory_offset};
    return zv_ring_put(ring, words, 6);
}

/* Sets the texels of a rectangle from bytes of a buffer. */
static inline int zv_upload_buffer(zv_ring *ring, uint32_t image, uint32_t x, uint32_t y, uint32_t w, uint32_t h,
                                   zv_format format, uint32_t buffer, uint32_t offset)
{
    const uint32_t words[] = {zv_header(ZV_UPLOAD_BUFFER, 9), image, x, y, w, h, (uint32_t)format, buffer, offset};
    return zv_ring_put(ring, words, 9);
}

/* Waits until the stream of a name has come to a release. */
static inline int zv_wait_sync_token(zv_ring *ring, uint32_t space, uint64_t id, uint64_t release)
{
    const uint32_t words[] = {zv_header(ZV_WAIT_SYNC_TOKEN, 6), space, (uint32_t)id, (uint32_t)(id >> 32),
                              (uint32_t)release, (uint32_t)(release >> 32)};
    return zv_ring_put(ring, words, 6);
}

#ifdef __cplusplus
}
#endif

#endif
