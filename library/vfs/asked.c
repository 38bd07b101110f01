/* asked.c: reads names and keys. It opens nothing. Not proved. */
#define _GNU_SOURCE
#include "asked.h"
#include "sqrescue.h"
#include <sqlite3ext.h>
#include <string.h>
#include <sys/stat.h>
SQLITE_EXTENSION_INIT3

#define DEFAULT_COPY 64 /* times 2^20 bytes */
#define MEBIBYTE 1048576

static int is_folder(const char *path) {
    struct stat found;
    return !stat(path, &found) && S_ISDIR(found.st_mode);
}

int vfs_file_length(const char *name) {
    const char *slash = strrchr(name, '/');
    const int whole = (int)strlen(name);
    char before[PATH_MAX];
    if (!slash || slash == name || slash[1] != '@' || slash - name >= PATH_MAX) return whole;
    memcpy(before, name, (size_t)(slash - name));
    before[slash - name] = 0;
    return is_folder(before) ? whole : (int)(slash - name);
}

/* Whether a text is digits alone, and its number, which is `most` if it is above that. */
static int is_number(const char *text, uint64_t most, uint64_t *number) {
    *number = 0;
    if (!*text) return 0;
    for (; *text >= '0' && *text <= '9'; text++) {
        *number = *number * 10 + (uint64_t)(*text - '0');
        if (*number > most) *number = most;
    }
    return !*text;
}

static uint32_t read_at(const char *text, struct vfs_asked *asked, const char **why) {
    uint64_t frame;
    *why = "a commit is the number of its last frame, in digits";
    if (!is_number(text, (uint64_t)UINT32_MAX + 1, &frame)) return SQR_UNKNOWN_OPTIONS;
    *why = "no log has so many frames";
    if (frame > UINT32_MAX) return SQR_NO_SUCH_COMMIT;
    *why = "the path and the key `at` name different commits";
    if (asked->has_at && asked->at != frame) return SQR_UNKNOWN_OPTIONS;
    asked->has_at = 1;
    asked->at = (uint32_t)frame;
    return SQR_OK;
}

/* The bit of a word of `flags=`; 0 if it isn't one. */
static uint32_t flag_of(const char *word, size_t len, struct vfs_asked *asked) {
    const char *const sized = "header:";
    char digits[16] = "";
    uint64_t size;
    if (len == 7 && !memcmp(word, "no-lock", len)) return VFS_NO_LOCK;
    if (len == 5 && !memcmp(word, "large", len)) return VFS_LARGE;
    if (len == 6 && !memcmp(word, "header", len)) return VFS_HEADER;
    if (len <= strlen(sized) || len >= strlen(sized) + sizeof digits || memcmp(word, sized, strlen(sized))) return 0;
    memcpy(digits, word + strlen(sized), len - strlen(sized));
    if (!is_number(digits, 65537, &size) || size < 512 || size > 65536 || (size & (size - 1))) return 0;
    asked->page_size = (uint32_t)size;
    return VFS_HEADER;
}

static uint32_t read_flags(const char *text, struct vfs_asked *asked, const char **why) {
    *why = "the words of `flags` are no-lock, large, header and header:PAGESIZE, with commas, each at most once";
    for (;;) {
        const size_t len = strcspn(text, ",");
        const uint32_t flag = flag_of(text, len, asked);
        if (!flag || asked->flags & flag) return SQR_UNKNOWN_OPTIONS;
        asked->flags |= flag;
        if (!text[len]) return SQR_OK;
        text += len + 1;
    }
}

static uint32_t read_key(const char *key, const char *value, struct vfs_asked *asked, const char **why) {
    static const char *const of_sqlite[] = {"vfs", "mode", "cache", "immutable"};
    uint64_t number;
    for (size_t i = 0; i < sizeof of_sqlite / sizeof *of_sqlite; i++)
        if (!strcmp(key, of_sqlite[i])) return SQR_OK;
    if (!strcmp(key, "at")) return read_at(value, asked, why);
    if (!strcmp(key, "flags")) return read_flags(value, asked, why);
    *why = "the key isn't known; there are at, wait, copy, flags, and SQLite's vfs, mode, cache and immutable";
    if (strcmp(key, "wait") && strcmp(key, "copy")) return SQR_UNKNOWN_OPTIONS;
    *why = "the value isn't a number up to 4294967295, in digits";
    if (!is_number(value, (uint64_t)UINT32_MAX + 1, &number) || number > UINT32_MAX) return SQR_UNKNOWN_OPTIONS;
    if (key[0] == 'w') asked->wait = (uint32_t)number;
    else asked->copy = number * MEBIBYTE;
    return SQR_OK;
}

uint32_t vfs_read_name(const char *name, struct vfs_asked *asked, const char **why, const char **key) {
    const int len = vfs_file_length(name);
    uint32_t status;
    *asked = (struct vfs_asked){.copy = (uint64_t)DEFAULT_COPY * MEBIBYTE};
    *key = NULL;
    *why = "the path is too long";
    if (len >= PATH_MAX) return SQR_NOT_THERE;
    memcpy(asked->file, name, (size_t)len);
    if (name[len] && (status = read_at(name + len + 2, asked, why))) return status;
    for (int i = 0; (*key = sqlite3_uri_key(name, i)); i++) {
        *why = "the key comes twice";
        for (int j = 0; j < i; j++)
            if (!strcmp(*key, sqlite3_uri_key(name, j))) return SQR_UNKNOWN_OPTIONS;
        if ((status = read_key(*key, sqlite3_uri_parameter(name, *key), asked, why))) return status;
    }
    return SQR_OK;
}
