/* pages FILE OUT: writes the database that FILE shows with its logs, page by page, to OUT; FILE is only read, and may
   have writers meanwhile. */
#define _POSIX_C_SOURCE 200809L /* fileno, fsync */
#include "sqrescue.h"

#include <stdio.h>
#include <stdlib.h>
#include <unistd.h>

int main(int argc, char **argv) {
    if (argc != 3) return fprintf(stderr, "usage: pages FILE OUT\n"), 2;
    struct sqr_path *path = NULL;
    uint32_t status = sqr_open_path(argv[1], 0, NULL, &path);
    if (status) return fprintf(stderr, "pages: %s: %s\n", argv[1], sqr_status_name(status)), 3;

    const struct sqr_view *view = sqr_path_view(path);
    uint8_t *page = malloc(view->page_size);
    if (!page) return perror("pages"), 2;
    FILE *out = fopen(argv[2], "wbx");
    if (!out) return perror(argv[2]), 2;
    for (uint32_t number = 1; number <= view->pages; number++) {
        status = sqr_page(view, number, page, view->page_size);
        if (status || fwrite(page, view->page_size, 1, out) != 1) return perror(argv[2]), 2;
    }
    if (fflush(out) || fsync(fileno(out)) || fclose(out)) return perror(argv[2]), 2;
    printf("%u pages of %u bytes\n", view->pages, view->page_size);
    free(page);
    sqr_close_path(&path);
    return 0;
}
