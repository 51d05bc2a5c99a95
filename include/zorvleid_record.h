/* Records what clients and services of GPU command buffers do, as text that zorvleid reads.
 *
 *   A client records its script while it runs:   zv_script_begin, zv_stream, zv_put, zv_flush, .., zv_script_end
 *   A service records its journal:               zv_journal_begin, zv_order, zv_step, .., zv_journal_end
 *
 * `zorvleid run` runs such a script, and `zorvleid verify` judges a journal by its script. docs/FORMATS.md has both texts,
 * and examples/record a client and a service that use this file. It is C99 and C++, and needs nothing but this file.
 *
 * Nothing is allocated. A recorder is a struct of the caller; its text goes to a sink, which is a FILE or a function.
 *
 * Each call returns 0 or an errno:
 *   EINVAL   the call cannot stand here, as a zv_put before any zv_stream
 *   ERANGE   a number is out of range, or a limit of scripts is passed
 *   other    a sink failed
 * After EINVAL or ERANGE nothing was written, and the recorder can go on. A fault of a sink sticks: from then on nothing is
 * written, and every call returns it, the last one too, which is zv_script_end or zv_journal_end. A fault of the call that
 * begins a recorder sticks as well.
 *
 * No call takes a lock, and recorders share nothing.
 *   - One zv_script is used by one thread at a time, as a rule the thread of its client. A client records a store before it
 *     makes it, and a flush before the service is told of it.
 *   - One zv_journal is used under the lock under which the service does what it records: the lines of a journal have to
 *     stand in the order of the events. The caller takes this lock, around the event and its call together.
 *
 * Where clients run at the same time, each has a zv_script of its own: the first begins with zv_script_begin, each other one
 * with zv_script_part. The script is their texts one after the other, in the order of their streams.
 */
#ifndef ZORVLEID_RECORD_H
#define ZORVLEID_RECORD_H

#include <errno.h>
#include <stddef.h>
#include <stdint.h>
#include <stdio.h>

#ifdef __cplusplus
extern "C" {
#endif

/* --- Sinks --- */

/* Takes text, and returns 0 or an errno. With a length of 0 it passes on what it has kept back. */
typedef int (*zv_write)(void *to, const char *text, size_t length);

typedef struct zv_sink {
    zv_write write;
    void *to; /* the first argument of each call */
} zv_sink;

static inline int zv_write_file(void *to, const char *text, size_t length)
{
    FILE *file = (FILE *)to;
    errno = 0;
    if (length == 0 ? fflush(file) == 0 : fwrite(text, 1, length, file) == length)
        return 0;
    return errno != 0 ? errno : EIO;
}

/* The sink of a file, which stays the caller's to close. NULL is no file: a recorder with this sink does not begin. */
static inline zv_sink zv_file(FILE *file)
{
    zv_sink sink;
    sink.write = file == NULL ? NULL : zv_write_file;
    sink.to = file;
    return sink;
}

/* --- Text, for the calls below --- */

typedef struct zv_text {
    zv_sink sink;
    int fault; /* the first fault of the sink */
    size_t used;
    char kept[512];
} zv_text;

static inline void zv_text_pass(zv_text *text)
{
    if (text->fault == 0 && text->used != 0)
        text->fault = text->sink.write(text->sink.to, text->kept, text->used);
    text->used = 0;
}

static inline void zv_text_byte(zv_text *text, char byte)
{
    if (text->used == sizeof text->kept)
        zv_text_pass(text);
    text->kept[text->used++] = byte;
}

static inline void zv_text_word(zv_text *text, const char *word)
{
    while (*word != '\0')
        zv_text_byte(text, *word++);
}

static inline void zv_text_number(zv_text *text, uint64_t number)
{
    char digits[20];
    int count = 0;
    do
        digits[count++] = (char)('0' + number % 10);
    while ((number /= 10) != 0);
    zv_text_byte(text, ' ');
    while (count != 0)
        zv_text_byte(text, digits[--count]);
}

static inline void zv_text_value(zv_text *text, char before, uint32_t value)
{
    int shift;
    zv_text_byte(text, before);
    for (shift = 28; shift >= 0; shift -= 4)
        zv_text_byte(text, "0123456789abcdef"[value >> shift & 15]);
}

/* Ends a line, which then is with the sink. */
static inline int zv_text_line(zv_text *text)
{
    zv_text_byte(text, '\n');
    zv_text_pass(text);
    return text->fault;
}

static inline int zv_text_begin(zv_text *text, zv_sink sink, unsigned version)
{
    text->sink = sink;
    text->used = 0;
    text->fault = sink.write == NULL || version < 1 || version > 2 ? EINVAL : 0;
    return text->fault;
}

static inline int zv_text_end(zv_text *text)
{
    if (text->fault == 0)
        text->fault = text->sink.write(text->sink.to, "", 0);
    return text->fault;
}

/* --- Scripts --- */

typedef enum zv_priority { ZV_HIGH, ZV_NORMAL, ZV_LOW } zv_priority;

/* A wait before a flush: until the stream has come to the release. In version 1 the id is its number, and the namespace 0. */
typedef struct zv_fence {
    uint32_t space;
    uint64_t id;
    uint64_t release;
} zv_fence;

enum { ZV_STREAMS = 16, ZV_FENCES = 16, ZV_MEMORIES = 16, ZV_ACTIONS = 1000000, ZV_FLUSHES = 100000, ZV_SPAN = 65536 };

/* The recorder of a script. Its fields are for the calls. */
typedef struct zv_script {
    zv_text text;
    unsigned version;
    uint32_t streams, ring;    /* how many streams there are, and how many entries the ring of the last one has */
    uint32_t actions, all;     /* of the last stream, and of all */
    uint32_t flushes;
    uint32_t memory[ZV_MEMORIES], results[ZV_MEMORIES]; /* their words, 0 where there is none */
    int is_closed;
} zv_script;

/* Begins the part of a script that has the streams after so many others. It has no head line. Each part counts its own
 * actions and flushes, and all parts together must keep the limits. */
static inline int zv_script_part(zv_script *script, zv_sink sink, unsigned version, uint32_t streams_before)
{
    script->version = version;
    script->streams = streams_before;
    script->ring = script->actions = script->all = script->flushes = 0;
    script->is_closed = 0;
    if (zv_text_begin(&script->text, sink, version) == 0 && streams_before >= ZV_STREAMS)
        script->text.fault = ERANGE;
    return script->text.fault;
}

/* Begins a script of version 1, in which streams have numbers, or of version 2, in which they have names. */
static inline int zv_script_begin(zv_script *script, zv_sink sink, unsigned version)
{
    int fault = zv_script_part(script, sink, version, 0);
    if (fault != 0)
        return fault;
    zv_text_word(&script->text, version == 1 ? "gpu-script 1" : "gpu-script 2");
    return zv_text_line(&script->text);
}

/* Ends a script or a part of one, and returns the first fault of its sink. */
static inline int zv_script_end(zv_script *script)
{
    return zv_text_end(&script->text);
}

static inline int zv_begin_stream(zv_script *script, unsigned version, uint32_t space, uint64_t id, zv_priority priority,
                                  uint32_t ring)
{
    int at;
    if (script->text.fault != 0)
        return script->text.fault;
    if (script->version != version)
        return EINVAL;
    if (priority != ZV_HIGH && priority != ZV_NORMAL && priority != ZV_LOW)
        return EINVAL;
    if (script->streams == ZV_STREAMS || space > 255 || ring < 16 || ring > 4096)
        return ERANGE;
    script->streams++;
    script->ring = ring;
    script->actions = 0;
    script->is_closed = 0;
    for (at = 0; at < ZV_MEMORIES; at++)
        script->memory[at] = script->results[at] = 0;
    zv_text_word(&script->text, "stream");
    if (script->version == 2)
        zv_text_number(&script->text, space);
    zv_text_number(&script->text, id);
    zv_text_word(&script->text, priority == ZV_HIGH ? " high" : priority == ZV_NORMAL ? " normal" : " low");
    zv_text_number(&script->text, ring);
    return zv_text_line(&script->text);
}

/* Begins the next stream of a script of version 1, with a ring of so many entries. */
static inline int zv_stream(zv_script *script, zv_priority priority, uint32_t ring)
{
    return zv_begin_stream(script, 1, 0, (uint64_t)script->streams + 1, priority, ring);
}

/* Begins the next stream of a script of version 2. The caller sees that no two streams have one name. */
static inline int zv_stream_named(zv_script *script, uint32_t space, uint64_t id, zv_priority priority, uint32_t ring)
{
    return zv_begin_stream(script, 2, space, id, priority, ring);
}

static inline int zv_declare(zv_script *script, const char *line, uint32_t *words, uint32_t number, uint32_t count)
{
    uint32_t sum = 0;
    int at;
    if (script->text.fault != 0)
        return script->text.fault;
    if (script->ring == 0 || script->actions != 0)
        return EINVAL;
    for (at = 0; at < ZV_MEMORIES; at++)
        sum += words[at];
    if (number >= ZV_MEMORIES || count == 0 || count > ZV_SPAN - sum)
        return ERANGE;
    if (words[number] != 0)
        return EINVAL;
    words[number] = count;
    zv_text_word(&script->text, line);
    zv_text_number(&script->text, number);
    zv_text_number(&script->text, count);
    return zv_text_line(&script->text);
}

/* Declares a transfer memory of the last stream, before its first action. */
static inline int zv_memory(zv_script *script, uint32_t number, uint32_t words)
{
    return zv_declare(script, "memory", script->memory, number, words);
}

/* Declares a result memory of the last stream, before its first action. */
static inline int zv_results(zv_script *script, uint32_t number, uint32_t words)
{
    return zv_declare(script, "results", script->results, number, words);
}

/* Whether the last stream may do so many actions more. */
static inline int zv_may_act(const zv_script *script, size_t count)
{
    if (script->text.fault != 0)
        return script->text.fault;
    if (script->ring == 0 || script->is_closed)
        return EINVAL;
    return count > ZV_ACTIONS - script->all ? ERANGE : 0;
}

static inline int zv_acted(zv_script *script, uint32_t count)
{
    script->actions += count;
    script->all += count;
    return zv_text_line(&script->text);
}

static inline int zv_stored(zv_script *script, uint32_t place, const uint32_t *values, size_t count)
{
    size_t at;
    zv_text_number(&script->text, place);
    for (at = 0; at < count; at++)
        zv_text_value(&script->text, ' ', values[at]);
    return zv_acted(script, (uint32_t)count);
}

/* The client stores values in its ring, from a place on. No values are no line. */
static inline int zv_put(zv_script *script, uint32_t place, const uint32_t *values, size_t count)
{
    int fault = zv_may_act(script, count);
    if (fault != 0 || count == 0)
        return fault;
    if (values == NULL)
        return EINVAL;
    if (place > script->ring || count > script->ring - place)
        return ERANGE;
    zv_text_word(&script->text, "put");
    return zv_stored(script, place, values, count);
}

/* The client stores values in a transfer memory, from a word on. No values are no line. */
static inline int zv_fill(zv_script *script, uint32_t memory, uint32_t index, const uint32_t *values, size_t count)
{
    int fault = zv_may_act(script, count);
    if (fault != 0 || count == 0)
        return fault;
    if (values == NULL || memory >= ZV_MEMORIES || script->memory[memory] == 0)
        return EINVAL;
    if (index > script->memory[memory] || count > script->memory[memory] - index)
        return ERANGE;
    zv_text_word(&script->text, "fill");
    zv_text_number(&script->text, memory);
    return zv_stored(script, index, values, count);
}

/* The client hands over its ring up to a place, after fences. `action`, where it is not NULL, is set to how many actions
 * stand before: what the service has to tell to zv_order when it takes this flush. */
static inline int zv_flush(zv_script *script, uint32_t put, const zv_fence *fences, size_t count, uint32_t *action)
{
    int fault = zv_may_act(script, 1);
    size_t at;
    if (fault != 0)
        return fault;
    if (fences == NULL && count != 0)
        return EINVAL;
    if (count > ZV_FENCES || script->flushes == ZV_FLUSHES)
        return ERANGE;
    for (at = 0; at < count; at++)
        if (script->version == 1 && (fences[at].space != 0 || fences[at].id > 0xffffffffu))
            return ERANGE;
    zv_text_word(&script->text, "flush");
    zv_text_number(&script->text, put);
    for (at = 0; at < count; at++) {
        if (script->version == 2)
            zv_text_number(&script->text, fences[at].space);
        zv_text_number(&script->text, fences[at].id);
        zv_text_number(&script->text, fences[at].release);
    }
    if (action != NULL)
        *action = script->actions;
    script->flushes++;
    return zv_acted(script, 1);
}

/* The client waits until all that it has flushed is finished. */
static inline int zv_finish(zv_script *script)
{
    int fault = zv_may_act(script, 1);
    if (fault != 0)
        return fault;
    zv_text_word(&script->text, "finish");
    return zv_acted(script, 1);
}

/* The client waits until the stream has set a token that is as great, or as zv_finish does. */
static inline int zv_token(zv_script *script, uint32_t token)
{
    int fault = zv_may_act(script, 1);
    if (fault != 0)
        return fault;
    zv_text_word(&script->text, "token");
    zv_text_number(&script->text, token);
    return zv_acted(script, 1);
}

/* The client waits as zv_finish does, and reads a word of a result memory. */
static inline int zv_dump(zv_script *script, uint32_t memory, uint32_t index)
{
    int fault = zv_may_act(script, 1);
    if (fault != 0)
        return fault;
    if (memory >= ZV_MEMORIES || script->results[memory] == 0)
        return EINVAL;
    if (index >= script->results[memory])
        return ERANGE;
    zv_text_word(&script->text, "dump");
    zv_text_number(&script->text, memory);
    zv_text_number(&script->text, index);
    return zv_acted(script, 1);
}

/* The client closes its stream, and does no more. */
static inline int zv_close(zv_script *script)
{
    int fault = zv_may_act(script, 1);
    if (fault != 0)
        return fault;
    zv_text_word(&script->text, "close");
    script->is_closed = 1;
    return zv_acted(script, 1);
}

/* --- Journals --- */

/* A word that the service has fetched. Places of the ring come first, and those of the transfer memories after them. */
typedef struct zv_word {
    uint32_t place, value;
} zv_word;

typedef enum zv_error {
    ZV_MEMORY, /* the service was out of memory */
    ZV_INVALID_SIZE,
    ZV_OUT_OF_BOUNDS,
    ZV_UNKNOWN_COMMAND,
    ZV_INVALID_ARGUMENTS,
    ZV_QUOTA = 6
} zv_error;

/* The recorder of a journal. Its fields are for the calls. It writes what it is told: whether that is legal, verify says. */
typedef struct zv_journal {
    zv_text text;
    unsigned version;
    uint32_t names;
} zv_journal;

/* Begins a journal, of the version of its script. In version 2 a zv_name has to follow for each stream. */
static inline int zv_journal_begin(zv_journal *journal, zv_sink sink, unsigned version)
{
    journal->version = version;
    journal->names = 0;
    if (zv_text_begin(&journal->text, sink, version) != 0 || version == 1)
        return journal->text.fault;
    zv_text_word(&journal->text, "gpu-journal 2");
    return zv_text_line(&journal->text);
}

/* Ends a journal, and returns the first fault of its sink. */
static inline int zv_journal_end(zv_journal *journal)
{
    return zv_text_end(&journal->text);
}

/* The name of the next stream, in version 2. */
static inline int zv_name(zv_journal *journal, uint32_t space, uint64_t id)
{
    if (journal->text.fault != 0)
        return journal->text.fault;
    if (journal->version != 2)
        return EINVAL;
    zv_text_word(&journal->text, "name");
    zv_text_number(&journal->text, ++journal->names);
    zv_text_number(&journal->text, space);
    zv_text_number(&journal->text, id);
    return zv_text_line(&journal->text);
}

/* A flush of a stream got an order number. `action` is what zv_flush has set. */
static inline int zv_order(zv_journal *journal, uint32_t stream, uint32_t number, uint32_t action)
{
    zv_text_word(&journal->text, "order");
    zv_text_number(&journal->text, stream);
    zv_text_number(&journal->text, number);
    zv_text_number(&journal->text, action);
    return zv_text_line(&journal->text);
}

static inline int zv_fetched(zv_journal *journal, const zv_word *words, size_t count)
{
    size_t at;
    for (at = 0; at < count; at++) {
        zv_text_number(&journal->text, words[at].place);
        zv_text_value(&journal->text, ':', words[at].value);
    }
    return zv_text_line(&journal->text);
}

/* A command of a stream was executed; these are the words that were fetched of it, in their order. */
static inline int zv_step(zv_journal *journal, uint32_t stream, const zv_word *words, size_t count)
{
    if (journal->text.fault != 0)
        return journal->text.fault;
    if (words == NULL && count != 0)
        return EINVAL;
    zv_text_word(&journal->text, "step");
    zv_text_number(&journal->text, stream);
    return zv_fetched(journal, words, count);
}

/* A flush of a stream was finished. */
static inline int zv_finish_order(zv_journal *journal, uint32_t stream, uint32_t number)
{
    zv_text_word(&journal->text, "finish");
    zv_text_number(&journal->text, stream);
    zv_text_number(&journal->text, number);
    return zv_text_line(&journal->text);
}

/* A stream was lost, by the error of a command with these words, or out of memory, which has no words. */
static inline int zv_lost(zv_journal *journal, uint32_t stream, zv_error error, const zv_word *words, size_t count)
{
    if (journal->text.fault != 0)
        return journal->text.fault;
    if ((words == NULL || error == ZV_MEMORY) && count != 0)
        return EINVAL;
    if ((int)error < 0 || (int)error > 6 || (int)error == 5)
        return ERANGE;
    zv_text_word(&journal->text, "lost");
    zv_text_number(&journal->text, stream);
    if (error == ZV_MEMORY)
        zv_text_word(&journal->text, " memory");
    else
        zv_text_number(&journal->text, (uint64_t)error);
    return zv_fetched(journal, words, count);
}

/* A stream was closed. */
static inline int zv_close_stream(zv_journal *journal, uint32_t stream)
{
    zv_text_word(&journal->text, "close");
    zv_text_number(&journal->text, stream);
    return zv_text_line(&journal->text);
}

#ifdef __cplusplus
}
#endif

#endif
