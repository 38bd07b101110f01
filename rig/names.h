/* The calls by which names of a set of files go, change or come, and those that make room in a file: files.c includes
   this at its end. */
/* ---- Names that go, change or come. */

int unlinkat(int at, const char *path, int flags) {
    const char *call = flags & AT_REMOVEDIR ? "rmdir" : "unlink", *part = part_of(at, path, call);
    if (!next_unlinkat) start();
    if (!part) return next_unlinkat(at, path, flags);
    enter();
    int name = flags ? 0 : number_of(part), answer = next_unlinkat(at, path, flags);
    if (!flags) put(UNLINK, 0, name, told(answer), 0, 0, NULL);
    else if (answer == 0) put_not_held(NONE, BELOW, call, part);
    leave();
    return answer;
}
int unlink(const char *path) { return unlinkat(AT_FDCWD, path, 0); }
int rmdir(const char *path) { return unlinkat(AT_FDCWD, path, AT_REMOVEDIR); }
int remove(const char *path) {
    int answer = unlinkat(AT_FDCWD, path, 0);
    return answer != 0 && errno == EISDIR ? unlinkat(AT_FDCWD, path, AT_REMOVEDIR) : answer;
}

/* A file that comes from outside the set, or leaves it, can't be held, nor two that are exchanged. Where the new name
   has to be free, as mv has it, a call that was done did the same as any other. */
int renameat2(int at, const char *path, int at_to, const char *to_path, unsigned flags) {
    const char *from = part_of(at, path, "rename"), *other = part_of(at_to, to_path, "rename");
    if (!next_renameat2) start();
    if (!from && !other) return next_renameat2(at, path, at_to, to_path, flags);
    enter();
    int answer = next_renameat2(at, path, at_to, to_path, flags), kept = errno;
    int name = from ? number_of(from) : 0, place = other ? number_of(other) : 0;
    if (!from || !other || flags & ~RENAME_NOREPLACE || (answer == 0 && names[name].file < 0)) {
        if (answer == 0) put_not_held(NONE, LINK, "rename", from ? from : other);
    } else if (strcmp(from, other)) {
        errno = kept;
        put(RENAME, 0, name, told(answer), place, 0, NULL);
    }
    errno = kept;
    leave();
    return answer;
}

/* A name that is of no file of the set, or of one that has another name already. */
static int named_otherwise(int answer, int at, const char *path, enum not_held what, const char *call) {
    int kept = errno;
    const char *part = answer == 0 ? part_of(at, path, call) : NULL;
    if (part) enter(), put_not_held(NONE, what, call, part), leave();
    errno = kept;
    return answer;
}

int linkat(int at, const char *from, int at_to, const char *other, int flags) {
    if (!next_linkat) start();
    int answer = next_linkat(at, from, at_to, other, flags);
    named_otherwise(answer, at, from, LINK, "link");
    return named_otherwise(answer, at_to, other, LINK, "link");
}
int link(const char *from, const char *other) { return linkat(AT_FDCWD, from, AT_FDCWD, other, 0); }

int symlinkat(const char *text, int at, const char *path) {
    if (!next_syscall) start();
    return named_otherwise((int)next_syscall(SYS_symlinkat, text, at, path), at, path, LINK, "symlink");
}
int symlink(const char *text, const char *path) { return symlinkat(text, AT_FDCWD, path); }

int mkdirat(int at, const char *path, mode_t mode) {
    if (!next_syscall) start();
    return named_otherwise((int)next_syscall(SYS_mkdirat, at, path, mode), at, path, BELOW, "mkdir");
}
int mkdir(const char *path, mode_t mode) { return mkdirat(AT_FDCWD, path, mode); }

int mknodat(int at, const char *path, mode_t mode, dev_t device_of) {
    if (!next_syscall) start();
    int answer = (int)next_syscall(SYS_mknodat, at, path, mode, device_of);
    return (mode & S_IFMT) == 0 || S_ISREG(mode) ? named_otherwise(answer, at, path, UNSEEN, "mknod") : answer;
}
int mknod(const char *path, mode_t mode, dev_t device_of) { return mknodat(AT_FDCWD, path, mode, device_of); }

/* ---- Room that is made lengthens a file by zeros, or does nothing that is seen; other kinds can't be held. */

static int made_room(int descriptor, int mode, off64_t end, int is_posix, int64_t from, off64_t count) {
    struct identity is;
    int file = held_by(descriptor, "fallocate");
    if (file >= 0) enter();
    int answer = is_posix ? next_posix_fallocate64(descriptor, from, count)
                          : next_fallocate64(descriptor, mode, from, count);
    if (file >= 0) {
        if (mode & ~FALLOC_FL_KEEP_SIZE) put_not_held(file, FALLOCATE, "fallocate", names[files[file].name].text);
        else if (!mode && answer == 0 && identify(descriptor, "", &is) && is.size == end) {
            put(CUT, file, 0, 0, end, 0, NULL);
        }
        leave();
    }
    return answer;
}

int fallocate64(int descriptor, int mode, off64_t from, off64_t count) {
    if (!next_fallocate64) start();
    return made_room(descriptor, mode, from + count, 0, from, count);
}
int fallocate(int descriptor, int mode, off_t from, off_t count) { return fallocate64(descriptor, mode, from, count); }
int posix_fallocate64(int descriptor, off64_t from, off64_t count) {
    if (!next_posix_fallocate64) start();
    return made_room(descriptor, 0, from + count, 1, from, count);
}
int posix_fallocate(int descriptor, off_t from, off_t count) { return posix_fallocate64(descriptor, from, count); }
