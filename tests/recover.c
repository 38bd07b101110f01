/* Calls sqr_recover and sqr_recover_to, as include/sqrescue.h has them.

   recover in FILE [FLAGS [WAIT]]           recovers FILE in its place, and prints what is answered
   recover to FILE OUT [FLAGS [AT]]         makes OUT, and prints what is answered
   recover memory FILE ROOM                 refuses each allocation of both calls in turn, over copies of FILE at ROOM
   recover misuse FILE ROOM                 what no caller should do, over a copy of FILE at ROOM
   recover threads FILE ROOM                four threads make copies, one of which is recovered in its place by all

   The last line of the last three is 'N passed, M failed'. */
#define _DEFAULT_SOURCE
#include "frame.h"

#include <pthread.h>
#include <unistd.h>

static const struct sqr_recovered unwritten = {77, 88, 99};

static int is_unwritten(const struct sqr_recovered *it) {
    return it->recovery == 77 && it->page_size == 88 && it->pages == 99;
}

static int told(uint32_t status, const struct sqr_recovered *it) {
    if (status) printf("%s%s\n", sqr_status_name(status), is_unwritten(it) ? "" : ", and an answer");
    else printf("ok %u %u %u\n", it->recovery, it->page_size, it->pages);
    return status ? 3 : 0;
}

static const char *const ends[] = {"", "-wal", "-journal"};

static void copy_files(const struct sqr_files *files, const char *to) {
    const uint8_t *bytes[] = {files->db, files->wal, files->journal};
    const size_t lens[] = {files->db_len, files->wal_len, files->journal_len};
    char name[4096];
    for (int i = 0; i < 3; i++) {
        snprintf(name, sizeof name, "%s%s", to, ends[i]);
        unlink(name);
        if (i == 0 || lens[i]) write_to(to, ends[i], bytes[i], lens[i]);
    }
}

/* Whether the files at a path have these bytes. */
static int are_files(const struct sqr_files *files, const char *path) {
    struct sqr_files now = files_of(path);
    int are = now.db_len == files->db_len && !memcmp(now.db, files->db, now.db_len) && now.wal_len == files->wal_len
        && !memcmp(now.wal, files->wal, now.wal_len) && now.journal_len == files->journal_len
        && !memcmp(now.journal, files->journal, now.journal_len);
    give_back(&now);
    return are;
}

static void refuse_each(const struct sqr_files *files, const char *room, int is_to) {
    char out[4096], part[4200];
    size_t total = 0;
    uint32_t right = 0;
    snprintf(out, sizeof out, "%s.out", room);
    snprintf(part, sizeof part, "%s.sqrescue-part", out);
    for (size_t number = 0; number <= total; number++) {
        struct sqr_recovered it = unwritten;
        copy_files(files, room);
        unlink(out);
        count_from(number);
        uint32_t status = is_to ? sqr_recover_to(room, out, 0, NULL, &it) : sqr_recover(room, 0, NULL, &it);
        is_counting = 0;
        check(held == 0, "all memory is given back");
        check(access(part, F_OK) && (!is_to || !status == !access(out, F_OK)), "a new file is whole or not there");
        if (number == 0) {
            right = status, total = asked;
            check(total > 0 && status != SQR_NO_MEMORY, "no allocation is refused");
        } else if (status != right) {
            check(status == SQR_NO_MEMORY, "an allocation that is refused is no memory");
            check(is_unwritten(&it), "no memory leaves the answer");
            check(are_files(files, room), "no memory leaves the files");
        }
    }
    check(total > 1, "memory is asked for");
}

static void misuse_in(const char *file) {
    struct sqr_recovered it = unwritten;
    struct sqr_options none = {0, 0, 0}, endless = SQR_OPTIONS_INIT;
    struct {
        struct sqr_options known;
        uint32_t more[2];
    } longer = {SQR_OPTIONS_INIT, {0, 1}};
    endless.size = SIZE_MAX, longer.known.size = sizeof longer;
    check(sqr_recover(NULL, 0, NULL, &it) == SQR_MISUSE, "no path");
    check(sqr_recover("", 0, NULL, &it) == SQR_NOT_THERE, "an empty path");
    for (uint32_t flag = 1; flag; flag <<= 1)
        if (!(flag & (SQR_NO_LOCK | SQR_ANY)))
            check(sqr_recover(file, flag, NULL, &it) == SQR_UNKNOWN_OPTIONS, "a flag");
    check(sqr_recover(file, 0, &none, &it) == SQR_UNKNOWN_OPTIONS, "options of zeros");
    check(sqr_recover(file, 0, &endless, &it) == SQR_UNKNOWN_OPTIONS, "options without end");
    check(sqr_recover(file, 0, &longer.known, &it) == SQR_UNKNOWN_OPTIONS, "options of a later version");
    check(sqr_recover("/", 0, NULL, &it) == SQR_FOLDER, "the root");
    check(sqr_recover("/dev/null", 0, NULL, &it) == SQR_NOT_A_FILE, "a device");
    check(is_unwritten(&it), "these leave the answer");
}

static void misuse_to(const char *file) {
    char taken[4100], out[4200], name[9000], beside[4200];
    struct sqr_recovered it = unwritten;
    struct sqr_options none = {0, 0, 0};
    static const char *const logs[] = {"-wal", "-journal", "-shm"};
    snprintf(taken, sizeof taken, "%s.taken", file);
    snprintf(out, sizeof out, "%s.made", file);
    write_to(taken, "", (const uint8_t *)"x", 1);
    check(sqr_recover_to(file, NULL, 0, NULL, &it) == SQR_MISUSE, "no OUT");
    check(sqr_recover_to(NULL, out, 0, NULL, &it) == SQR_MISUSE, "no path");
    check(sqr_recover_to(file, "", 0, NULL, &it) == SQR_NOT_THERE, "an empty OUT");
    check(sqr_recover_to("", out, 0, NULL, &it) == SQR_NOT_THERE, "an empty path");
    check(sqr_recover_to(file, taken, 0, NULL, &it) == SQR_ALREADY_THERE, "an OUT that is there");
    check(sqr_recover_to(file, file, 0, NULL, &it) == SQR_ALREADY_THERE, "FILE itself");
    check(sqr_recover_to(file, "/", 0, NULL, &it) == SQR_ALREADY_THERE, "the root");
    snprintf(name, sizeof name, "%s/made", taken);
    check(sqr_recover_to(file, name, 0, NULL, &it) == SQR_NOT_THERE, "an OUT below a file");
    snprintf(name, sizeof name, "%s/nowhere/made", file);
    check(sqr_recover_to(file, name, 0, NULL, &it) == SQR_NOT_THERE, "an OUT in no folder");
    memset(name, 'x', sizeof name - 1);
    name[sizeof name - 1] = 0;
    check(sqr_recover_to(file, name, 0, NULL, &it) == SQR_FILE_FAILED, "a path of 9000 bytes");
    name[300] = 0;
    check(sqr_recover_to(file, name, 0, NULL, &it) == SQR_FILE_FAILED, "a name of 300 bytes");
    for (int i = 0; i < 3; i++) {
        snprintf(beside, sizeof beside, "%s%s", file, logs[i]);
        int is_there = !access(beside, F_OK);
        check(sqr_recover_to(file, beside, 0, NULL, &it) == SQR_MISUSE, "the name of a log");
        check(is_there == !access(beside, F_OK), "which is made by nobody");
    }
    for (uint32_t flag = 1; flag; flag <<= 1)
        if (!(flag & (SQR_NO_LOCK | SQR_AT | SQR_ANY)))
            check(sqr_recover_to(file, out, flag, NULL, &it) == SQR_UNKNOWN_OPTIONS, "a flag");
    check(sqr_recover_to(file, out, 0, &none, &it) == SQR_UNKNOWN_OPTIONS, "options of zeros");
    check(is_unwritten(&it) && access(out, F_OK), "these leave the answer, and make nothing");
    check(sqr_recover_to(file, out, 0, NULL, NULL) == SQR_OK && !access(out, F_OK), "without an answer");
    check(sqr_recover(file, 0, NULL, NULL) == SQR_OK, "in place without an answer");
    check(sqr_recover(file, 0, NULL, &it) == SQR_OK && it.recovery == SQR_RECOVERY_NONE, "once more");
}

static const char *thread_file;

static void *make_copies(void *wrong) {
    char out[4200];
    for (int round = 0; round < 10; round++) {
        struct sqr_recovered it = unwritten;
        snprintf(out, sizeof out, "%s.%p.%d", thread_file, wrong, round);
        if (sqr_recover_to(thread_file, out, 0, NULL, &it) || it.pages == 0) ++*(int *)wrong;
        unlink(out);
        if (round == 5 && sqr_recover(thread_file, 0, NULL, &it)) ++*(int *)wrong;
    }
    return NULL;
}

static void on_threads(const char *file) {
    pthread_t all[4];
    int wrong[4] = {0, 0, 0, 0};
    thread_file = file;
    for (int i = 0; i < 4; i++) check(pthread_create(&all[i], NULL, make_copies, &wrong[i]) == 0, "a thread");
    for (int i = 0; i < 4; i++) check(pthread_join(all[i], NULL) == 0 && !wrong[i], "what a thread made");
}

int main(int argc, char **argv) {
    struct sqr_recovered it = unwritten;
    struct sqr_options options = SQR_OPTIONS_INIT;
    if (argc < 3) return 2;
    options.wait = argc > 4 && !strcmp(argv[1], "in") ? (uint32_t)atoi(argv[4]) : 0;
    if (!strcmp(argv[1], "in"))
        return told(sqr_recover(argv[2], argc > 3 ? (uint32_t)atoi(argv[3]) : 0, &options, &it), &it);
    if (argc < 4) return 2;
    if (!strcmp(argv[1], "to")) {
        options.wait = 5000, options.at = argc > 5 ? (uint32_t)strtoul(argv[5], NULL, 10) : 0;
        return told(sqr_recover_to(argv[2], argv[3], argc > 4 ? (uint32_t)atoi(argv[4]) : 0, &options, &it), &it);
    }
    at_hand = argv[2];
    struct sqr_files files = files_of(argv[2]);
    copy_files(&files, argv[3]);
    if (!strcmp(argv[1], "memory")) refuse_each(&files, argv[3], 0), refuse_each(&files, argv[3], 1);
    if (!strcmp(argv[1], "misuse")) misuse_in(argv[3]), check(are_files(&files, argv[3]), "nothing is written");
    if (!strcmp(argv[1], "misuse")) misuse_to(argv[3]);
    if (!strcmp(argv[1], "threads")) on_threads(argv[3]);
    give_back(&files);
    return summed();
}
