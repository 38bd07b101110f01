/* Calls the C library by path, as include/sqrescue.h has it.

   paths copy FILE OUT      writes the database of FILE to OUT, page by page, and closes it
   paths make FILE OUT      makes OUT by sqr_recover_to
   paths answer FILE FLAGS  prints what opening FILE answers
   paths memory FILE..      refuses each allocation of opening each FILE in turn
   paths misuse FILE        what no caller should do
   paths threads FILE       four threads open, read and close it, again and again, and two read one view
   paths held FILE          opens it, says so, and once a line comes whether its pages are as they were; closes it

   The last line but of copy, make, answer and held is 'N passed, M failed'. */
#define _DEFAULT_SOURCE
#include "frame.h"

#include <pthread.h>

static int copy(const char *file, const char *to) {
    struct sqr_path *path = NULL;
    uint32_t status = sqr_open_path(file, 0, NULL, &path);
    if (status) return printf("%s\n", sqr_status_name(status)), 3;
    const struct sqr_view *view = sqr_path_view(path);
    uint8_t *page = malloc(view->page_size);
    FILE *out = fopen(to, "wb");
    if (!page || !out) return 2;
    for (uint32_t number = 1; !status && number <= view->pages; number++) {
        status = sqr_page(view, number, page, view->page_size);
        if (fwrite(page, view->page_size, 1, out) != 1) return 2;
    }
    free(page);
    sqr_close_path(&path);
    if (fclose(out)) return 2;
    printf("%s\n", sqr_status_name(status));
    return status ? 3 : 0;
}

static int make(const char *file, const char *to) {
    struct sqr_recovered made = {9, 9, 9};
    uint32_t status = sqr_recover_to(file, to, 0, NULL, &made);
    printf("%s\n", sqr_status_name(status));
    return status ? 3 : 0;
}

static int answer(const char *file, uint32_t flags) {
    struct sqr_path *path = NULL;
    struct sqr_options options = SQR_OPTIONS_INIT;
    options.wait = 100;
    uint32_t status = sqr_open_path(file, flags, &options, &path);
    if (status) {
        printf("%s%s\n", sqr_status_name(status), path ? ", and a handle" : "");
        return 0;
    }
    const struct sqr_view *view = sqr_path_view(path);
    const struct sqr_files *files = sqr_path_files(path);
    printf("ok %u %u, %zu %zu %zu\n", view->pages, view->page_size, files->db_len, files->wal_len, files->journal_len);
    sqr_close_path(&path);
    return 0;
}

static int memory(char **files) {
    static const uint32_t all[] = {0, SQR_FILES_ONLY, SQR_FILES_ONLY | SQR_NO_LOCK, SQR_AT, SQR_NO_LOCK | SQR_AT};
    for (; *files; files++) {
        for (size_t which = 0; which < sizeof all / sizeof *all; which++) {
            const uint32_t flags = all[which];
            size_t total = 0;
            uint32_t right = SQR_OK;
            for (size_t number = 0; number <= total; number++) {
                struct sqr_path *path = NULL;
                count_from(number);
                uint32_t status = sqr_open_path(*files, flags, NULL, &path);
                if (number == 0) right = status;
                else check(status == SQR_NO_MEMORY || status == right, "an allocation that is refused is no memory");
                check(!status == !!path, "a handle, or a status");
                sqr_close_path(&path);
                is_counting = 0;
                check(held == 0, "all memory is given back");
                check(path == NULL, "a handle that is closed is NULL");
                if (number == 0) total = asked;
            }
            check(total > 0, "memory is asked for");
        }
    }
    return 0;
}

static int misuse(const char *file) {
    struct sqr_path *path = (struct sqr_path *)(uintptr_t)8;
    struct sqr_options options = SQR_OPTIONS_INIT, none = {0, 0, 0}, endless = SQR_OPTIONS_INIT;
    struct {
        struct sqr_options known;
        uint32_t more[2];
    } later = {SQR_OPTIONS_INIT, {0, 0}};
    check(sqr_open_path(NULL, 0, NULL, &path) == SQR_MISUSE && !path, "no path");
    check(sqr_open_path(file, 0, NULL, NULL) == SQR_MISUSE, "no place for the handle");
    check(sqr_open_path("", 0, NULL, &path) == SQR_NOT_THERE && !path, "an empty path");
    check(sqr_open_path(file, 128, NULL, &path) == SQR_UNKNOWN_OPTIONS && !path, "a flag of a later version");
    check(sqr_open_path(file, UINT32_MAX, NULL, &path) == SQR_UNKNOWN_OPTIONS, "all flags");
    check(sqr_open_path(file, 0, &none, &path) == SQR_UNKNOWN_OPTIONS, "options of zeros");
    endless.size = SIZE_MAX;
    check(sqr_open_path(file, 0, &endless, &path) == SQR_UNKNOWN_OPTIONS, "options without end");
    later.known.size = sizeof later;
    check(sqr_open_path(file, 0, &later.known, &path) == SQR_OK, "options of a later version that ask for nothing");
    sqr_close_path(&path);
    later.more[1] = 1;
    check(sqr_open_path(file, 0, &later.known, &path) == SQR_UNKNOWN_OPTIONS, "options of a later version");
    options.size = sizeof options.size;
    check(sqr_open_path(file, 0, &options, &path) == SQR_OK, "options of an earlier version");
    sqr_close_path(&path);
    sqr_close_path(&path);
    sqr_close_path(NULL);
    check(sqr_path_view(path)->pages == 0, "the view of a handle that is closed");
    uint8_t page[512];
    check(sqr_page(sqr_path_view(path), 1, page, sizeof page) == SQR_NO_SUCH_PAGE, "a page of a handle that is closed");
    struct sqr_report report = {0, 0, 0, 0, 0, 0, 0};
    check(sqr_check(sqr_path_files(path), &report) == SQR_DAMAGED, "a check of a handle that is closed");
    struct sqr_view zeros;
    struct sqr_files no_files;
    memset(&zeros, 0, sizeof zeros);
    memset(&no_files, 0, sizeof no_files);
    check(sqr_page(&zeros, 1, page, sizeof page) == SQR_NO_SUCH_PAGE, "a page of a view of zeros");
    uint32_t size = 0, pages = 0;
    check(sqr_size(&no_files, &size, &pages) == SQR_NOT_A_DATABASE, "the size of files of zeros");
    check(sqr_check(&no_files, &report) == SQR_DAMAGED, "a check of files of zeros");
    check(sqr_open_path(file, SQR_AT, NULL, &path) == SQR_OK, "the database before the first commit");
    check(sqr_page(sqr_path_view(path), 1, page, 0) == SQR_WRONG_SIZE, "a page of no bytes");
    check(sqr_page(sqr_path_view(path), 1, page, SIZE_MAX >> 1) == SQR_WRONG_SIZE, "a page without end");
    sqr_close_path(&path);
    options = (struct sqr_options)SQR_OPTIONS_INIT;
    options.at = UINT32_MAX;
    check(sqr_open_path(file, SQR_AT, &options, &path) == SQR_NO_SUCH_COMMIT && !path, "a commit that there isn't");
    return 0;
}

static const char *thread_file;
static const struct sqr_view *shared_view;

static void *open_and_read(void *wrong) {
    uint8_t page[65536];
    for (int round = 0; round < 20; round++) {
        struct sqr_path *path = NULL;
        if (sqr_open_path(thread_file, 0, NULL, &path)) ++*(int *)wrong;
        const struct sqr_view *view = round % 2 ? sqr_path_view(path) : shared_view;
        for (uint32_t number = 1; number <= view->pages; number++)
            if (sqr_page(view, number, page, view->page_size)) ++*(int *)wrong;
        sqr_close_path(&path);
    }
    return NULL;
}

static int threads(const char *file) {
    struct sqr_path *path = NULL;
    pthread_t all[4];
    int wrong[4] = {0, 0, 0, 0};
    thread_file = file;
    check(sqr_open_path(file, 0, NULL, &path) == SQR_OK, "opened");
    shared_view = sqr_path_view(path);
    for (int i = 0; i < 4; i++) check(pthread_create(&all[i], NULL, open_and_read, &wrong[i]) == 0, "a thread");
    for (int i = 0; i < 4; i++) check(pthread_join(all[i], NULL) == 0 && !wrong[i], "what a thread read");
    sqr_close_path(&path);
    return 0;
}

/* A sum of all pages of a view. */
static uint64_t sum_of(const struct sqr_view *view) {
    uint8_t page[65536];
    uint64_t sum = view->pages;
    for (uint32_t number = 1; number <= view->pages; number++) {
        if (sqr_page(view, number, page, view->page_size)) return 0;
        for (uint32_t i = 0; i < view->page_size; i++) sum = sum * 31 + page[i];
    }
    return sum;
}

static int hold(const char *file) {
    struct sqr_path *path = NULL;
    uint32_t status = sqr_open_path(file, 0, NULL, &path);
    const struct sqr_view *view = sqr_path_view(path);
    uint64_t sum = sum_of(view);
    printf("%s %u\n", sqr_status_name(status), view->pages);
    fflush(stdout);
    getchar();
    printf("%s\n", sum_of(view) == sum ? "kept" : "changed");
    sqr_close_path(&path);
    return 0;
}

int main(int argc, char **argv) {
    if (argc < 3) return 2;
    if (!strcmp(argv[1], "copy") && argc > 3) return copy(argv[2], argv[3]);
    if (!strcmp(argv[1], "make") && argc > 3) return make(argv[2], argv[3]);
    if (!strcmp(argv[1], "answer") && argc > 3) return answer(argv[2], (uint32_t)atoi(argv[3]));
    if (!strcmp(argv[1], "held")) return hold(argv[2]);
    if (!strcmp(argv[1], "memory")) memory(argv + 2);
    if (!strcmp(argv[1], "misuse")) misuse(argv[2]);
    if (!strcmp(argv[1], "threads")) threads(argv[2]);
    return summed();
}
