/* A small service that records its journal: ./service | ./zorvleid verify
 *
 * It serves two streams on one thread, and knows four commands: InsertFence, WaitToken, CreateImage and ClearRect, the last
 * two of which it only pretends to execute. With --break it goes on although a wait is pending:
 * ./service --break | ./zorvleid explain
 */
#include <string.h>

#include "../../include/zorvleid_ring.h"

enum { RING = 64, STREAMS = 2 };

/* A stream with at most one flush: what its client has put, and how far the service has come. */
struct stream {
    uint32_t entries[RING];
    uint32_t put, action;           /* the flush: up to where, and after how many actions */
    uint32_t number, get;           /* its order number, 0 where it has none, and what was read of it */
    uint64_t release;
    uint32_t target;                /* the stream that it waits for, 0 for none, */
    uint64_t wanted;                /* and the release that it waits for */
};

static struct stream streams[STREAMS + 1]; /* from 1 on */

/* Begins the stream of a client, and its ring. */
static int begin(zv_script *script, struct stream *stream, zv_ring *ring)
{
    int fault = zv_stream(script, ZV_NORMAL, RING);
    return fault == 0 ? zv_ring_begin(ring, script, stream->entries, RING) : fault;
}

/* Hands over what a client has put. */
static int flush(struct stream *stream, zv_ring *ring)
{
    stream->put = ring->place;
    return zv_ring_flush(ring, NULL, 0, &stream->action);
}

/* Records two clients, and fills the rings of their streams: the second waits for the first, and paints its image. */
static int record(zv_script *script)
{
    zv_ring ring;
    int fault = begin(script, &streams[1], &ring);
    if (fault == 0)
        fault = zv_create_image(&ring, 1, 4, 4);
    if (fault == 0)
        fault = zv_clear_rect(&ring, 1, 0, 0, 4, 4, 0xd9534fff);
    if (fault == 0)
        fault = zv_insert_fence(&ring, 1);
    if (fault == 0)
        fault = flush(&streams[1], &ring);
    if (fault == 0)
        fault = begin(script, &streams[2], &ring);
    if (fault == 0)
        fault = zv_wait_token(&ring, 1, 1);
    if (fault == 0)
        fault = zv_clear_rect(&ring, 1, 1, 1, 2, 2, 0xffffffff);
    return fault == 0 ? flush(&streams[2], &ring) : fault;
}

/* A wait is kept while its target has not come to the release and works on a lower number. */
static int is_waiting(const struct stream *stream)
{
    const struct stream *target = &streams[stream->target];
    return stream->target != 0 && target->number != 0 && target->number < stream->number && target->release < stream->wanted;
}

/* Executes the next command of a stream: copies its words once, records the copy, and uses nothing else. */
static int step(zv_journal *journal, uint32_t number)
{
    struct stream *stream = &streams[number];
    zv_word words[RING];
    uint32_t header = stream->entries[stream->get], size = zv_size_of(header), id = zv_id_of(header), at;
    int fault;
    if (size == 0 || size > stream->put - stream->get) {
        words[0].place = stream->get;
        words[0].value = header;
        stream->number = 0;
        return zv_lost(journal, number, size == 0 ? ZV_INVALID_SIZE : ZV_OUT_OF_BOUNDS, words, 1);
    }
    for (at = 0; at < size; at++) {
        words[at].place = stream->get + at;
        words[at].value = at == 0 ? header : stream->entries[stream->get + at];
    }
    fault = zv_step(journal, number, words, size);
    stream->get += size;
    if (id == ZV_INSERT_FENCE && words[1].value + ((uint64_t)words[2].value << 32) > stream->release)
        stream->release = words[1].value + ((uint64_t)words[2].value << 32);
    if (id == ZV_WAIT_TOKEN && words[1].value >= 1 && words[1].value <= STREAMS && words[1].value != number) {
        stream->target = words[1].value;
        stream->wanted = words[2].value + ((uint64_t)words[3].value << 32);
    }
    return fault;
}

/* Runs all flushes, one command of a stream after one of another. */
static int serve(zv_journal *journal, int is_broken)
{
    uint32_t number, left = STREAMS;
    int fault = 0;
    for (number = 1; number <= STREAMS && fault == 0; number++) {
        streams[number].number = number;
        fault = zv_order(journal, number, number, streams[number].action);
    }
    while (left != 0 && fault == 0)
        for (number = STREAMS; number >= 1 && fault == 0; number--) {
            struct stream *stream = &streams[number];
            if (stream->number == 0 || (is_waiting(stream) && !is_broken))
                continue;
            if (stream->get < stream->put) {
                fault = step(journal, number);
            } else {
                fault = zv_finish_order(journal, number, stream->number);
                stream->number = 0;
            }
            left -= stream->number == 0;
        }
    return fault;
}

int main(int count, char **words)
{
    int is_broken = count == 2 && strcmp(words[1], "--break") == 0, fault;
    zv_script script;
    zv_journal journal;

    if (count > 1 && !is_broken) {
        fprintf(stderr, "usage: service [--break]\n");
        return 2;
    }
    fault = zv_script_begin(&script, zv_file(stdout), 1);
    if (fault == 0)
        fault = record(&script);
    if (fault == 0)
        fault = zv_script_end(&script);
    if (fault == 0 && puts("journal") == EOF)
        fault = EIO;
    if (fault == 0)
        fault = zv_journal_begin(&journal, zv_file(stdout), 1);
    if (fault == 0)
        fault = serve(&journal, is_broken);
    if (fault == 0)
        fault = zv_journal_end(&journal);
    if (fault != 0)
        fprintf(stderr, "service: %s\n", strerror(fault));
    return fault == 0 ? 0 : 1;
}
