/* The files of the folder, by device and inode, and their names. */
#include "tracer.h"

enum { PINS = 256, LISTED = 64 };

struct file **files;
struct name *names;
int file_count, name_count;
int top;
const char *top_path;

static struct file **table;
static size_t table_room, table_count;
static uint32_t *name_table;
static int file_room, name_room;
static int pin_count, pin_limit = PINS;
static const char *only[LISTED], *but[LISTED];
static int only_count, but_count;

/* ---- Files. */

static struct file **slot(dev_t device, ino_t inode) {
    return &table[(size_t)((device * 31 + inode) * 0x9E3779B97F4A7C15u >> 20) % table_room];
}

struct file *find_file(const struct stat *state) {
    struct file *file = table_room ? *slot(state->st_dev, state->st_ino) : NULL;
    while (file && (file->device != state->st_dev || file->inode != state->st_ino)) file = file->next;
    return file;
}

static void grow_table(void) {
    struct file **old = table;
    size_t room = table_room;
    table_room = room ? 2 * room : 1024;
    table = need(calloc(table_room, sizeof *table));
    for (size_t i = 0; i < room; i++) {
        for (struct file *file = old[i], *next; file; file = next) {
            struct file **to = slot(file->device, file->inode);
            next = file->next;
            file->next = *to;
            *to = file;
        }
    }
    free(old);
}

static struct file *new_file(const struct stat *state) {
    struct file *file = need(calloc(1, sizeof *file));
    if (table_count++ >= table_room) grow_table();
    struct file **to = slot(state->st_dev, state->st_ino);
    file->device = state->st_dev;
    file->inode = state->st_ino;
    file->number = file->name = file->pin = NONE;
    file->next = *to;
    *to = file;
    return file;
}

/* A file of the folder, which gets the next number. */
struct file *add_file(const struct stat *state) {
    struct file *file = new_file(state);
    if (file_count == file_room) {
        file_room = file_room ? 2 * file_room : 256;
        files = need(realloc(files, file_room * sizeof *files));
    }
    file->number = file_count;
    files[file_count++] = file;
    return file;
}

/* A file or a folder in a folder of the folder. */
void add_below(const struct stat *state, const char *path) {
    if (!find_file(state)) new_file(state)->below = need(strdup(path));
}

static void drop_file(struct file *file) { /* no name leads to it, and nobody has it */
    struct file **at = slot(file->device, file->inode);
    while (*at != file) at = &(*at)->next;
    *at = file->next;
    table_count--;
    unwatch(file);
    files[file->number] = NULL;
    close(file->pin);
    pin_count--;
    free(file);
}

/* ---- Names. */

static uint32_t *name_slot(const char *text) {
    uint32_t hash = 2166136261u;
    while (*text) hash = (hash ^ (uint8_t)*text++) * 16777619u;
    return &name_table[hash % (uint32_t)name_room];
}

int known_name(const char *text) {
    uint32_t at = name_room ? *name_slot(text) : 0;
    while (at && strcmp(names[at - 1].text, text)) at = names[at - 1].next;
    return (int)at - 1;
}

static void enlist_name(int name) {
    uint32_t *to = name_slot(names[name].text);
    names[name].next = *to;
    *to = (uint32_t)name + 1;
}

/* The number of a name. A new one gets a record. */
int name_of(const char *text) {
    int name = known_name(text);
    if (name >= 0) return name;
    put(NAME, 0, name_count, 0, 0, strlen(text), text);
    if (name_count == name_room) {
        name_room = name_room ? 2 * name_room : 256;
        names = need(realloc(names, name_room * sizeof *names));
        free(name_table);
        name_table = need(calloc(name_room, sizeof *name_table));
        for (int i = 0; i < name_count; i++) enlist_name(i);
    }
    names[name_count] = (struct name){ need(strdup(text)), NULL, 0 };
    enlist_name(name_count);
    return name_count++;
}

/* From now on the name leads to this file, or to none. */
void lead(int name, struct file *file) {
    if (names[name].file) names[name].file->name = NONE;
    names[name].file = file;
    if (file) file->name = name;
}

void leave_out(int is_only, const char *name) {
    if ((is_only ? only_count : but_count) == LISTED) {
        errno = E2BIG;
        die(is_only ? "--only" : "--but");
    }
    if (is_only) only[only_count++] = name;
    else but[but_count++] = name;
}

int is_wanted(const char *name) {
    for (int i = 0; i < but_count; i++) if (!strcmp(but[i], name)) return 0;
    for (int i = 0; i < only_count; i++) if (!strcmp(only[i], name)) return 1;
    return !only_count;
}

int is_top(const struct stat *state) {
    static struct stat is;
    if (!is.st_ino && fstat(top, &is)) die(top_path);
    return state->st_dev == is.st_dev && state->st_ino == is.st_ino;
}

/* ---- Files whose name goes. The inode's number may come back, unless somebody still has the file: we do, until no
   traced process does. */

void pin(struct file *file, const struct side *side) {
    if (!file || file->number < 0 || file->pin >= 0) return;
    file->pin = openat(side->folder, side->last, O_PATH | O_NOFOLLOW | O_CLOEXEC);
    if (file->pin >= 0) pin_count++;
}

void unpin(struct file *file) {
    if (!file || file->pin < 0 || file->name < 0) return;
    close(file->pin);
    file->pin = NONE;
    pin_count--;
}

/* No name leads to the file any more. */
void let_go(struct file *file) {
    if (!file || file->pin < 0 || pin_count <= pin_limit) return;
    find_used();
    for (int i = 0; i < file_count; i++) {
        struct file *one = files[i];
        if (one && one->pin >= 0 && one->name < 0 && !one->is_used) drop_file(one);
    }
    pin_limit = PINS + 2 * pin_count;
}
