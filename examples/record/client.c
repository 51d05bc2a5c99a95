/* Two clients that record what they do while they do it: ./client | ./zorvleid run
 *
 * The first paints an image and releases it. The second copies it, after a fence. They take turns here, as threads might,
 * so each has a recorder of its own; the text of the second is kept in an array until the first is done.
 */
#include <string.h>

#include "../../include/zorvleid_ring.h"

enum { RING = 64, KEPT = 4096 };

/* A client: the entries that it shares with a service, its recorder, and the ring by which it puts commands. */
struct client {
    uint32_t entries[RING];
    zv_script script;
    zv_ring ring;
};

struct kept {
    char text[KEPT];
    size_t used;
};

static int keep(void *to, const char *text, size_t length)
{
    struct kept *kept = (struct kept *)to;
    if (length > KEPT - kept->used)
        return ENOMEM;
    memcpy(kept->text + kept->used, text, length);
    kept->used += length;
    return 0;
}

/* Begins the stream of a client, and its ring. */
static int begin(struct client *client, zv_priority priority)
{
    int fault = zv_stream(&client->script, priority, RING);
    return fault == 0 ? zv_ring_begin(&client->ring, &client->script, client->entries, RING) : fault;
}

int main(void)
{
    static const zv_fence painted = {0, 1, 1};
    static struct client painter, copier;
    static struct kept kept;
    zv_sink to_kept;
    int fault;

    to_kept.write = keep;
    to_kept.to = &kept;
    fault = zv_script_begin(&painter.script, zv_file(stdout), 1);
    if (fault == 0)
        fault = begin(&painter, ZV_LOW);
    if (fault == 0)
        fault = zv_script_part(&copier.script, to_kept, 1, 1);
    if (fault == 0)
        fault = begin(&copier, ZV_HIGH);

    /* The rings have room for all of this, and a fault of a recorder is told by zv_script_end. */
    if (fault == 0) {
        (void)zv_create_image(&painter.ring, 1, 4, 4);
        (void)zv_create_image(&copier.ring, 2, 8, 4);
        (void)zv_clear_rect(&painter.ring, 1, 0, 0, 4, 4, 0xd9534fff);
        (void)zv_copy_rect(&copier.ring, 1, 0, 0, 2, 0, 0, 4, 4);
        (void)zv_copy_rect(&copier.ring, 1, 0, 0, 2, 4, 0, 4, 4);
        (void)zv_insert_fence(&painter.ring, 1);
        (void)zv_ring_flush(&painter.ring, NULL, 0, NULL);
        (void)zv_ring_flush(&copier.ring, &painted, 1, NULL);
        (void)zv_ring_finish(&copier.ring);
    }

    if (fault == 0)
        fault = zv_script_end(&copier.script);
    if (fault == 0)
        fault = zv_script_end(&painter.script);
    if (fault == 0 && (fwrite(kept.text, 1, kept.used, stdout) != kept.used || fflush(stdout) != 0))
        fault = EIO;
    if (fault != 0)
        fprintf(stderr, "client: %s\n", strerror(fault));
    return fault == 0 ? 0 : 1;
}
