/* The folder as it is when recording begins, and when it ends. */
#include "tracer.h"
#include <dirent.h>

enum { CHUNK = 1 << 16 };

static int is_dot(const char *name) { return !strcmp(name, ".") || !strcmp(name, ".."); }

/* Calls `each` for every entry of a folder. */
static void walk(int folder, const char *path, void (*each)(int folder, const char *path, const char *name)) {
    int from = openat(folder, ".", O_RDONLY | O_DIRECTORY | O_CLOEXEC);
    DIR *all = from < 0 ? NULL : fdopendir(from);
    struct dirent *entry;
    while (all && (entry = readdir(all))) if (!is_dot(entry->d_name)) each(folder, path, entry->d_name);
    if (all) closedir(all);
}

static int open_entry(int folder, const char *name, int flags) {
    return openat(folder, name, O_RDONLY | O_CLOEXEC | O_NOFOLLOW | O_NONBLOCK | flags);
}

/* ---- When recording begins. */

static void put_base(const char *name, const struct stat *state) {
    char bytes[CHUNK];
    int from = open_entry(top, name, 0);
    if (from < 0) {
        refuse(UNSEEN, NULL, "a file that can't be read:", name, NULL);
        return;
    }
    if (find_file(state)) {
        refuse(LINK, NULL, "two names of a file:", name, NULL);
        close(from);
        return;
    }
    struct file *file = add_file(state);
    int number = name_of(name);
    put(BASE, file->number, number, 0, 0, (uint64_t)state->st_size, NULL);
    lead(number, file);
    for (off_t at = 0; at < state->st_size;) {
        size_t part = state->st_size - at < CHUNK ? (size_t)(state->st_size - at) : CHUNK;
        ssize_t more = pread(from, bytes, part, at);
        if (more <= 0) die(name);
        put_more(bytes, (size_t)more);
        at += more;
    }
    close(from);
}

static void begin_below(int folder, const char *path, const char *name) {
    struct stat state;
    char whole[PATH_MAX];
    if (fstatat(folder, name, &state, AT_SYMLINK_NOFOLLOW)) return;
    if (snprintf(whole, sizeof whole, "%s/%s", path, name) >= PATH_MAX) return;
    if (S_ISREG(state.st_mode) || S_ISDIR(state.st_mode)) add_below(&state, whole);
    int next = S_ISDIR(state.st_mode) ? open_entry(folder, name, O_DIRECTORY) : NONE;
    if (next < 0) return;
    walk(next, whole, begin_below);
    close(next);
}

static void begin_file(int folder, const char *path, const char *name) {
    struct stat state;
    (void)path;
    if (!is_wanted(name) || fstatat(folder, name, &state, AT_SYMLINK_NOFOLLOW)) return;
    if (S_ISREG(state.st_mode)) put_base(name, &state);
    if (S_ISLNK(state.st_mode)) refuse(LINK, NULL, "symbolic link", name, NULL);
}

/* Folders of the folder come after its files, so that a file with a name in both is one of its files. */
static void begin_folder(int folder, const char *path, const char *name) {
    struct stat state;
    (void)path;
    if (!is_wanted(name) || fstatat(folder, name, &state, AT_SYMLINK_NOFOLLOW) || !S_ISDIR(state.st_mode)) return;
    add_below(&state, name);
    int next = open_entry(folder, name, O_DIRECTORY);
    if (next < 0) return;
    walk(next, name, begin_below);
    close(next);
}

void walk_begin(void) {
    walk(top, "", begin_file);
    walk(top, "", begin_folder);
}

/* ---- When it ends. */

static void find_new(int folder, const char *path, const char *name) {
    struct stat state;
    (void)path;
    if (!is_wanted(name) || fstatat(folder, name, &state, AT_SYMLINK_NOFOLLOW) || !S_ISREG(state.st_mode)) return;
    int number = known_name(name);
    if (number < 0 || !names[number].file) refuse(MADE, NULL, "none, for", name, NULL);
    name_of(name);
}

static void put_end(int name) {
    static uint8_t bytes[CHUNK];
    struct stat state;
    uint64_t sum = 0, length = 0;
    ssize_t more = 0;
    int from = open_entry(top, names[name].text, 0);
    if (from >= 0 && (fstat(from, &state) || !S_ISREG(state.st_mode))) {
        close(from);
        from = NONE;
    }
    while (from >= 0 && (more = read(from, bytes, sizeof bytes)) > 0) {
        for (ssize_t i = 0; i < more; i++) sum = sum * 1099511628211u + bytes[i];
        length += (uint64_t)more;
    }
    if (more < 0) die(names[name].text);
    put(END, 0, name, (int64_t)sum, from >= 0, length, NULL);
    if (from >= 0) close(from);
}

void walk_end(void) {
    struct stat state;
    acting = getpid();
    compare(NULL);
    if (fstat(top, &state) || state.st_nlink == 0) {
        refuse(UNSEEN, NULL, "rmdir", top_path, "the folder itself was taken away");
    }
    walk(top, "", find_new);
    if (name_count == 0) name_of("none"); /* so that a trace always ends with an end */
    for (int i = 0, count = name_count; i < count; i++) put_end(i);
}
