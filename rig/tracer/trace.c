/* The records of the trace, and what it can't hold. */
#include "tracer.h"

enum { TEXT_ROOM = 1024, REFUSED = 1024, PRINTED = 20 };

struct head {
    uint32_t action, file, name, thread;
    int64_t answer;
    uint64_t place, length;
};

static FILE *trace;
uint64_t record_count, change_count, refusal_count;
static uint64_t mark_count;
pid_t acting;

/* Ends the recorder, and by that the program: no trace is better than one with a gap. */
void die(const char *what) {
    fprintf(stderr, "trace: %s: %s\n", what, strerror(errno));
    exit(NO_TRACE);
}

void *need(void *memory) {
    if (!memory) die("memory");
    return memory;
}

void open_trace(const char *path) {
    trace = fopen(path, "we");
    if (!trace || setvbuf(trace, NULL, _IOFBF, 1 << 20) || fputs("SQCRTR2\n", trace) == EOF) die(path);
}

void close_trace(void) {
    if (fclose(trace)) die("the trace can't be written");
    trace = NULL;
}

void put_more(const void *bytes, size_t count) {
    if (count && fwrite(bytes, count, 1, trace) != 1) die("the trace can't be written");
}

static void note_dirty(struct file *file, off_t from, off_t to) {
    if (!file->is_dirty || from < file->dirty_from) file->dirty_from = from;
    if (!file->is_dirty || to > file->dirty_to) file->dirty_to = to;
    file->is_dirty = 1;
}

static void note_write(struct file *file, int64_t answer, off_t place, off_t length, const void *bytes) {
    note_dirty(file, place, place + length);
    if (answer < 0) return;
    if (place + length > file->length) file->length = place + length;
    if (bytes) copy_bytes(file, place, bytes, (size_t)length);
}

static void note_cut(struct file *file, int64_t answer, off_t length) {
    off_t former = file->length;
    note_dirty(file, length < former ? length : former, length < former ? former : length);
    if (answer < 0) return;
    file->length = length;
    copy_length(file, length, former);
}

/* A record. If bytes is NULL and the action carries some, the caller writes them by put_more. */
void put(enum action action, int file, int name, int64_t answer, uint64_t place, uint64_t length, const void *bytes) {
    struct head head = { action, (uint32_t)file, (uint32_t)name, (uint32_t)acting, answer, place, length };
    int is_change = action == MAKE || action == WRITE || action == CUT || action == UNLINK || action == RENAME;
    record_count++;
    if (is_change && answer >= 0) change_count++;
    if (action == BASE) files[file]->length = (off_t)length;
    if (action == WRITE) note_write(files[file], answer, (off_t)place, (off_t)length, bytes);
    if (action == CUT) note_cut(files[file], answer, (off_t)place);
    if (action == SYNC && answer >= 0) files[file]->is_dirty = 0;
    put_more(&head, sizeof head);
    if (bytes) put_more(bytes, length);
}

/* ---- What a trace can't hold. */

static const char *const WHY[] = {
    [SHARED_MAP] = "a shared map that can be written", [FALLOCATE] = "room made or taken in another way",
    [LINK] = "a link, or a name that comes from elsewhere, goes elsewhere or is exchanged",
    [SYNCED_WRITE] = "a write that syncs itself, while others of its file aren't synced",
    [UNSEEN] = "it isn't seen what this does", [BELOW] = "a folder in the folder",
    [UNWRITTEN] = "nothing was written since this thread's mark before",
    [MADE] = "the file was made or removed by a call that isn't seen",
};

/* Whether this text was used already: each is used once. */
static int was_refused(const char *text) {
    static uint64_t used[REFUSED];
    uint64_t hash = 14695981039346656037u;
    while (*text) hash = (hash ^ (uint8_t)*text++) * 1099511628211u;
    hash |= 1;
    for (unsigned i = 0; i < REFUSED; i++) {
        uint64_t *at = &used[(hash + i) % REFUSED];
        if (*at == hash) return 1;
        if (!*at) return *at = hash, 0;
    }
    return 1;
}

const char *name_in_text(const struct file *file) {
    if (!file) return "";
    return file->below ? file->below : file->name == NONE ? "a file without a name" : names[file->name].text;
}

/* Refuses a call that the trace can't hold: on standard error, and by a record and its text. why is NULL for the reason
   that `what` has. */
void refuse(enum not_held what, const struct file *file, const char *call, const char *name, const char *why) {
    char text[TEXT_ROOM];
    int has_number = file && file->number >= 0;
    snprintf(text, sizeof text, "%s%s%.512s: %s", call, *name ? " " : "", name, why ? why : WHY[what]);
    for (char *at = text; *at; at++) if ((uint8_t)*at < 32 || *at == 127) *at = '?';
    if (was_refused(text)) return;
    if (refusal_count++ < PRINTED) fprintf(stderr, "trace: not recorded: %s\n", text);
    put(NOT_HELD, has_number ? file->number : 0, has_number && file->name >= 0 ? file->name : 0, what, 0, 0, NULL);
    put(MARK, 0, 0, 0, 0, strlen(text), text);
}

/* ---- Marks. */

/* Between two commits of a thread somebody has to write something. */
static void put_mark(struct thread *thread, const char *line, size_t length) {
    int commits = length >= 6 && !memcmp(line, "commit", 6) && (length == 6 || line[6] == ' ');
    char number[32];
    put(MARK, 0, 0, 0, 0, length, line);
    mark_count++;
    if (commits && thread->changes_then == change_count + 1 && !refusal_count) {
        snprintf(number, sizeof number, "%llu", (unsigned long long)mark_count);
        refuse(UNWRITTEN, NULL, "commit, at mark", number, NULL);
    }
    thread->changes_then = change_count + 1;
}

void put_marks(struct thread *thread, const char *lines, size_t count) {
    while (count > 0) {
        const char *end = memchr(lines, '\n', count);
        size_t line = end ? (size_t)(end - lines) : count;
        if (line > 0) put_mark(thread, lines, line);
        line += end != NULL;
        lines += line;
        count -= line;
    }
}
