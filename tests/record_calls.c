/* Calls of include/zorvleid_record.h and zorvleid_ring.h, for tools/checks/recording.py:
 *
 *   record_calls script     writes a script of version 2 by every call of a zv_script
 *   record_calls commands   writes a script with each command, put by its call into a ring that goes round its end
 *   record_calls journal    writes a journal of version 2 by every call of a zv_journal
 *   record_calls faults     makes each call that is refused, and writes how many are not refused as they have to be
 *   record_calls sticks     does the same for a sink that fails
 */
#include <string.h>

#include "../include/zorvleid_ring.h"

static const uint32_t values[4096] = {0x20000003, 7, 0, 0xffffffff};
static zv_fence fences[17];

static int script(void)
{
    zv_script s;
    uint32_t action = 0;
    zv_fence fence = {255, 0xffffffffffffffffu, 7};
    int fault = zv_script_begin(&s, zv_file(stdout), 2);
    fault |= zv_stream_named(&s, 255, 0xffffffffffffffffu, ZV_HIGH, 4096);
    fault |= zv_memory(&s, 15, 65536) | zv_results(&s, 0, 1) | zv_results(&s, 15, 65535);
    fault |= zv_put(&s, 0, values, 4096) | zv_put(&s, 4095, values, 1) | zv_put(&s, 4096, values, 0);
    fault |= zv_fill(&s, 15, 65535, values + 3, 1) | zv_fill(&s, 15, 0, values, 4);
    fault |= zv_flush(&s, 3, &fence, 1, &action);
    if (action != 4096 + 1 + 1 + 4)
        return 1;
    fault |= zv_finish(&s) | zv_token(&s, 0xffffffff) | zv_dump(&s, 15, 65534) | zv_flush(&s, 0xffffffff, NULL, 0, NULL);
    fault |= zv_close(&s);
    fault |= zv_stream_named(&s, 0, 0, ZV_NORMAL, 16) | zv_flush(&s, 0, fences, 16, &action);
    return fault | zv_stream_named(&s, 0, 1, ZV_LOW, 17) | zv_script_end(&s) | (action != 0);
}

#define DO(call) (fault = fault != 0 ? fault : (call))

static int commands(void)
{
    static uint32_t entries[64];
    static unsigned char bytes[70] = {1, 2, 3, 4, 5, 255};
    zv_script s;
    zv_ring r;
    uint32_t action = 0;
    int fault = zv_script_begin(&s, zv_file(stdout), 1);
    bytes[69] = 9;
    DO(zv_stream(&s, ZV_NORMAL, 64));
    DO(zv_ring_begin(&r, &s, entries, 64));
    DO(zv_memory(&s, 1, 8));
    DO(zv_results(&s, 2, 8));
    DO(zv_results(&s, 3, 8));
    DO(zv_set_token(&r, 5));
    DO(zv_set_bucket_size(&r, 3, 70));
    DO(zv_set_bucket_data(&r, 3, 8, 4, 1, 12));
    DO(zv_set_bucket_data_immediate(&r, 3, 0, bytes, 70));
    DO(zv_get_bucket_start(&r, 3, 2, 4, 12, 3, 16));
    DO(zv_get_bucket_data(&r, 3, 1, 6, 2, 8));
    DO(zv_ring_flush(&r, NULL, 0, &action));
    DO(action != r.place);
    DO(zv_token(&s, 5));
    DO(zv_ring_read(&r, 2));
    DO(zv_insert_fence(&r, 7));
    DO(zv_ring_finish(&r));
    DO(zv_insert_fence(&r, 0x100000008u));
    DO(zv_wait_token(&r, 2, 0x200000003u));
    DO(zv_create_image(&r, 1, 4, 3));
    DO(zv_create_image(&r, 2, 5, 6));
    DO(zv_clear_rect(&r, 1, 1, 2, 3, 1, 0x336699ff));
    DO(zv_ring_flush(&r, NULL, 0, NULL));
    DO(zv_ring_finish(&r));
    DO(zv_copy_rect(&r, 1, 0, 1, 2, 3, 4, 2, 1));
    DO(zv_upload_rect(&r, 1, 1, 0, 2, 3, ZV_RGB565, 1, 6));
    DO(zv_upload_bucket(&r, 2, 1, 2, 3, 4, ZV_RGBA4444, 3));
    DO(zv_create_buffer(&r, 4, 80));
    DO(zv_ring_flush(&r, NULL, 0, NULL));
    DO(zv_ring_finish(&r));
    DO(zv_buffer_data(&r, 4, 10, 5, 1, 3));
    DO(zv_upload_buffer(&r, 1, 0, 1, 3, 2, ZV_RGBA8, 4, 7));
    DO(zv_delete_buffer(&r, 4));
    DO(zv_delete_image(&r, 2));
    DO(zv_noop(&r, 3));
    DO(zv_noop(&r, 1));
    DO(zv_wait_sync_token(&r, 9, 0x300000004u, 0x500000006u));
    DO(zv_ring_flush(&r, NULL, 0, NULL));
    DO(zv_script_end(&s));
    return fault;
}

static int journal(void)
{
    static const zv_word words[] = {{0, 0x20000003}, {4294967295u, 0xffffffffu}};
    zv_journal j;
    int fault = zv_journal_begin(&j, zv_file(stdout), 2);
    fault |= zv_name(&j, 255, 0xffffffffffffffffu) | zv_name(&j, 0, 0) | zv_name(&j, 0, 1);
    fault |= zv_order(&j, 1, 1, 4102) | zv_step(&j, 1, words, 2) | zv_step(&j, 1, NULL, 0) | zv_finish_order(&j, 1, 1);
    fault |= zv_lost(&j, 1, ZV_MEMORY, NULL, 0) | zv_lost(&j, 2, ZV_OUT_OF_BOUNDS, NULL, 0);
    fault |= zv_lost(&j, 3, ZV_QUOTA, words, 1) | zv_close_stream(&j, 4294967295u);
    return fault | zv_journal_end(&j);
}

/* --- Calls that are refused --- */

static size_t written;

static int count(void *to, const char *text, size_t length)
{
    (void)text;
    written += length;
    return to == NULL || length == 0 ? 0 : *(int *)to;
}

static int wrong;

static void want(int line, int wanted, int got)
{
    if (got != wanted) {
        printf("line %d: wanted %d, got %d\n", line, wanted, got);
        wrong++;
    }
}

#define WANT(code, call) want(__LINE__, code, call)

/* A script of version 1 with a stream of 16 entries, and memories 1 of 4 words each. */
static void begin(zv_script *s)
{
    zv_sink sink = {count, NULL};
    WANT(0, zv_script_begin(s, sink, 1));
    WANT(0, zv_stream(s, ZV_NORMAL, 16));
    WANT(0, zv_memory(s, 1, 4));
    WANT(0, zv_results(s, 1, 4));
    written = 0;
}

static void before_a_stream(void)
{
    zv_sink sink = {count, NULL}, none = {NULL, NULL};
    zv_script s;
    WANT(EINVAL, zv_script_begin(&s, none, 1));
    WANT(EINVAL, zv_stream(&s, ZV_LOW, 16));
    WANT(EINVAL, zv_script_begin(&s, zv_file(NULL), 1));
    WANT(EINVAL, zv_stream(&s, ZV_LOW, 16));
    WANT(EINVAL, zv_script_end(&s));
    WANT(EINVAL, zv_script_begin(&s, sink, 0));
    WANT(EINVAL, zv_script_begin(&s, sink, 3));
    WANT(EINVAL, zv_script_end(&s));
    WANT(ERANGE, zv_script_part(&s, sink, 1, 16));
    WANT(ERANGE, zv_stream(&s, ZV_LOW, 16));
    WANT(0, zv_script_part(&s, sink, 1, 15));
    WANT(EINVAL, zv_put(&s, 0, values, 1));
    WANT(EINVAL, zv_fill(&s, 0, 0, values, 1));
    WANT(EINVAL, zv_flush(&s, 0, NULL, 0, NULL));
    WANT(EINVAL, zv_finish(&s));
    WANT(EINVAL, zv_token(&s, 0));
    WANT(EINVAL, zv_dump(&s, 0, 0));
    WANT(EINVAL, zv_close(&s));
    WANT(EINVAL, zv_memory(&s, 0, 1));
    WANT(EINVAL, zv_stream(&s, (zv_priority)3, 16));
    WANT(ERANGE, zv_stream(&s, ZV_LOW, 15));
    WANT(ERANGE, zv_stream(&s, ZV_LOW, 4097));
    WANT(EINVAL, zv_stream_named(&s, 0, 1, ZV_LOW, 16));
    WANT(0, (int)written);
    WANT(0, zv_stream(&s, ZV_LOW, 16));
    WANT(ERANGE, zv_stream(&s, ZV_LOW, 16));
    WANT(0, zv_script_begin(&s, sink, 2));
    WANT(EINVAL, zv_stream(&s, ZV_LOW, 16));
    WANT(ERANGE, zv_stream_named(&s, 256, 1, ZV_LOW, 16));
}

static void in_a_stream(void)
{
    zv_script s;
    begin(&s);
    WANT(EINVAL, zv_memory(&s, 1, 4));
    WANT(ERANGE, zv_memory(&s, 16, 4));
    WANT(ERANGE, zv_memory(&s, 2, 0));
    WANT(ERANGE, zv_memory(&s, 2, 65533));
    WANT(ERANGE, zv_results(&s, 2, 0xffffffff));
    WANT(ERANGE, zv_put(&s, 0, values, 17));
    WANT(ERANGE, zv_put(&s, 16, values, 1));
    WANT(ERANGE, zv_put(&s, 0xffffffff, values, 2));
    WANT(ERANGE, zv_put(&s, 0, values, (size_t)-1));
    WANT(EINVAL, zv_put(&s, 0, NULL, 1));
    WANT(EINVAL, zv_fill(&s, 0, 0, values, 1));
    WANT(EINVAL, zv_fill(&s, 16, 0, values, 1));
    WANT(EINVAL, zv_fill(&s, 1, 0, NULL, 1));
    WANT(ERANGE, zv_fill(&s, 1, 1, values, 4));
    WANT(EINVAL, zv_flush(&s, 0, NULL, 1, NULL));
    WANT(ERANGE, zv_flush(&s, 0, fences, 17, NULL));
    fences[0].space = 1;
    WANT(ERANGE, zv_flush(&s, 0, fences, 1, NULL));
    fences[0].space = 0;
    fences[0].id = 0x100000000u;
    WANT(ERANGE, zv_flush(&s, 0, fences, 1, NULL));
    fences[0].id = 0;
    WANT(EINVAL, zv_dump(&s, 0, 0));
    WANT(ERANGE, zv_dump(&s, 1, 4));
    WANT(0, zv_put(&s, 0, values, 0));
    WANT(0, (int)written);
    WANT(0, zv_close(&s));
    WANT(EINVAL, zv_finish(&s));
    WANT(EINVAL, zv_memory(&s, 2, 4));
}

static void at_the_limits(void)
{
    static const uint32_t one[16] = {1};
    zv_script s;
    uint32_t at;
    begin(&s);
    for (at = 0; at < 100000; at++)
        WANT(0, zv_flush(&s, 0, NULL, 0, NULL));
    WANT(ERANGE, zv_flush(&s, 0, NULL, 0, NULL));
    for (at = 0; at < 900000 / 16; at++)
        WANT(0, zv_put(&s, 0, one, 16));
    WANT(ERANGE, zv_put(&s, 0, one, 1));
    WANT(ERANGE, zv_finish(&s));
}

static void in_a_journal(void)
{
    static const zv_word word = {0, 0};
    zv_sink sink = {count, NULL}, none = {NULL, NULL};
    zv_journal j;
    WANT(EINVAL, zv_journal_begin(&j, none, 1));
    WANT(EINVAL, zv_order(&j, 1, 1, 0));
    WANT(EINVAL, zv_journal_begin(&j, sink, 0));
    written = 0;
    WANT(0, zv_journal_begin(&j, sink, 1));
    WANT(EINVAL, zv_name(&j, 0, 1));
    WANT(EINVAL, zv_step(&j, 1, NULL, 1));
    WANT(EINVAL, zv_lost(&j, 1, ZV_QUOTA, NULL, 1));
    WANT(EINVAL, zv_lost(&j, 1, ZV_MEMORY, &word, 1));
    WANT(ERANGE, zv_lost(&j, 1, (zv_error)5, NULL, 0));
    WANT(ERANGE, zv_lost(&j, 1, (zv_error)7, NULL, 0));
    WANT(0, (int)written);
}

static void in_a_ring(void)
{
    static uint32_t entries[16];
    zv_script s;
    zv_ring r;
    begin(&s);
    WANT(EINVAL, zv_ring_begin(&r, &s, NULL, 16));
    WANT(EINVAL, zv_ring_begin(&r, &s, entries, 17));
    WANT(ERANGE, zv_ring_begin(&r, NULL, entries, 15));
    WANT(ERANGE, zv_ring_begin(&r, NULL, entries, 4097));
    WANT(ERANGE, zv_noop(&r, 1));
    WANT(EINVAL, zv_ring_read(&r, 0));
    WANT(0, zv_ring_begin(&r, &s, entries, 16));
    WANT(ERANGE, zv_noop(&r, 0));
    WANT(ERANGE, zv_noop(&r, 16));
    WANT(EINVAL, zv_set_bucket_data_immediate(&r, 0, 0, NULL, 1));
    WANT(ERANGE, zv_set_bucket_data_immediate(&r, 0, 0, entries, 49));
    WANT(ERANGE, zv_set_bucket_data_immediate(&r, 0, 0, entries, 0xffffffff));
    WANT(EINVAL, zv_ring_flush(&r, NULL, 1, NULL));
    WANT(EINVAL, zv_ring_read(&r, 16));
    WANT(0, (int)written);
    WANT(0, zv_noop(&r, 8));
    WANT(8, (int)r.place);
    WANT(ERANGE, zv_copy_rect(&r, 1, 0, 0, 1, 0, 0, 1, 1)); /* 8 to fill, and 9 */
    WANT(0, zv_clear_rect(&r, 1, 0, 0, 1, 1, 7));
    WANT(EAGAIN, zv_noop(&r, 1));
    WANT(EINVAL, zv_ring_read(&r, 8));
    WANT(0, zv_ring_flush(&r, NULL, 0, NULL));
    WANT(EAGAIN, zv_delete_image(&r, 1));
    WANT(0, zv_ring_read(&r, 8));
    WANT(EINVAL, zv_ring_read(&r, 4));
    WANT(0, zv_delete_image(&r, 1)); /* with a Noop of the last entry before it */
    WANT(1, (int)entries[15]);
    WANT((int)zv_header(ZV_DELETE_IMAGE, 2), (int)entries[0]);
    WANT(2, (int)r.place);
    WANT(EAGAIN, zv_clear_rect(&r, 1, 0, 0, 1, 1, 7));
    WANT(0, zv_ring_finish(&r));
    WANT(15, (int)r.freed);
    WANT(0, zv_clear_rect(&r, 1, 0, 0, 1, 1, 7));
    r.script = NULL;
    written = 0;
    WANT(0, zv_ring_flush(&r, NULL, 0, NULL));
    WANT(0, zv_ring_finish(&r));
    WANT(0, zv_set_token(&r, 3));
    WANT(0, (int)written);
    r.script = &s;
    WANT(0, zv_close(&s));
    WANT(EINVAL, zv_set_token(&r, 4));
    WANT(11, (int)r.place);
}

static int faults(void)
{
    before_a_stream();
    in_a_stream();
    in_a_ring();
    at_the_limits();
    in_a_journal();
    printf("%d wrong\n", wrong);
    return wrong != 0;
}

/* --- A sink that fails --- */

static int sticks(void)
{
    static uint32_t entries[16];
    int code = 0;
    zv_sink sink;
    zv_script s;
    zv_ring r;
    zv_journal j;
    sink.write = count;
    sink.to = &code;
    WANT(0, zv_script_begin(&s, sink, 1));
    WANT(0, zv_stream(&s, ZV_NORMAL, 16));
    WANT(0, zv_journal_begin(&j, sink, 1));
    WANT(0, zv_ring_begin(&r, &s, entries, 16));
    code = ENOSPC;
    WANT(ENOSPC, zv_set_bucket_data_immediate(&r, 0, 0, values, 4));
    WANT(5, (int)r.place);
    WANT(0x20000003, (int)entries[4]);
    WANT(ENOSPC, zv_noop(&r, 1));
    WANT(ENOSPC, zv_ring_flush(&r, NULL, 0, NULL));
    WANT(ENOSPC, zv_ring_finish(&r));
    WANT(5, (int)r.place);
    WANT(ENOSPC, zv_put(&s, 0, values, 16));
    WANT(ENOSPC, zv_order(&j, 1, 1, 0));
    code = 0;
    written = 0;
    WANT(ENOSPC, zv_put(&s, 0, values, 1));
    WANT(ENOSPC, zv_fill(&s, 0, 0, values, 1));
    WANT(ENOSPC, zv_flush(&s, 0, NULL, 0, NULL));
    WANT(ENOSPC, zv_finish(&s));
    WANT(ENOSPC, zv_token(&s, 1));
    WANT(ENOSPC, zv_dump(&s, 0, 0));
    WANT(ENOSPC, zv_close(&s));
    WANT(ENOSPC, zv_stream(&s, ZV_LOW, 16));
    WANT(ENOSPC, zv_stream(&s, ZV_LOW, 15));
    WANT(ENOSPC, zv_stream_named(&s, 0, 1, ZV_LOW, 16));
    WANT(ENOSPC, zv_put(&s, 0, NULL, 17));
    WANT(ENOSPC, zv_memory(&s, 0, 4));
    WANT(ENOSPC, zv_results(&s, 16, 0));
    WANT(ENOSPC, zv_script_end(&s));
    WANT(ENOSPC, zv_name(&j, 0, 1));
    WANT(ENOSPC, zv_step(&j, 1, NULL, 0));
    WANT(ENOSPC, zv_step(&j, 1, NULL, 1));
    WANT(ENOSPC, zv_lost(&j, 1, (zv_error)5, NULL, 0));
    WANT(ENOSPC, zv_finish_order(&j, 1, 1));
    WANT(ENOSPC, zv_lost(&j, 1, ZV_MEMORY, NULL, 0));
    WANT(ENOSPC, zv_close_stream(&j, 1));
    WANT(ENOSPC, zv_journal_end(&j));
    WANT(0, (int)written);
    printf("%d wrong\n", wrong);
    return wrong != 0;
}

int main(int argc, char **argv)
{
    const char *asked = argc == 2 ? argv[1] : "";
    if (strcmp(asked, "script") == 0)
        return script();
    if (strcmp(asked, "commands") == 0)
        return commands();
    if (strcmp(asked, "journal") == 0)
        return journal();
    if (strcmp(asked, "faults") == 0)
        return faults();
    return strcmp(asked, "sticks") == 0 ? sticks() : 2;
}
