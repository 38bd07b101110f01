/* check FILE: whether the database that FILE shows with its logs is well formed, and its commits
   in a write-ahead log. */
#include "sqrescue.h"

#include <stdio.h>
#include <stdlib.h>

static uint32_t print_commits(const struct sqr_files *files) {
    struct sqr_commit none = {0, 0, 0};
    uint32_t count = 0, status = sqr_wal_commits(files->wal, files->wal_len, &none, 0, &count);
    if (status != SQR_NO_ROOM) return status;
    struct sqr_commit *commits = calloc(count, sizeof *commits);
    if (!commits) return SQR_NO_MEMORY;
    status = sqr_wal_commits(files->wal, files->wal_len, commits, count, &count);
    for (uint32_t i = 0; !status && i < count; i++) printf("commit %u: frame %u\n", i + 1, commits[i].frame);
    free(commits);
    return status;
}

static int print_check(const struct sqr_files *files) {
    struct sqr_report report = {0, 0, 0, 0, 0, 0, 0};
    uint32_t status = sqr_check(files, &report);
    if (status > SQR_DAMAGED) return fprintf(stderr, "check: %s\n", sqr_status_name(status)), 3;
    if (status == SQR_DAMAGED) {
        printf("page %u: fault %u %s\n", report.page, report.fault, sqr_fault_name(report.fault));
        return 1;
    }
    printf("clean: %u pages, %u trees, %u b-tree, %u overflow, %u free\n", report.pages, report.trees, report.btree,
           report.overflow, report.free);
    status = print_commits(files);
    if (status) printf("no commits: %s\n", sqr_status_name(status));
    return 0;
}

int main(int argc, char **argv) {
    if (argc != 2) return fprintf(stderr, "usage: check FILE\n"), 2;
    struct sqr_path *path = NULL;
    uint32_t status = sqr_open_path(argv[1], SQR_FILES_ONLY, NULL, &path);
    if (status) return fprintf(stderr, "check: %s: %s\n", argv[1], sqr_status_name(status)), 3;
    int verdict = print_check(sqr_path_files(path));
    sqr_close_path(&path);
    return verdict;
}
