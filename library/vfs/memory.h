/* memory.h: reads memory that may lie in a mapped file, without a signal. License: MIT. */
#ifndef VFS_MEMORY_H
#define VFS_MEMORY_H
#include <stddef.h>

/* Whether the system lets this process read its own memory by process_vm_readv(2). */
int vfs_may_read(void);

/* Copies bytes: 0, or -1 with errno if not all of them can be read, as in a mapped file that was cut. */
int vfs_copy(void *to, const void *from, size_t len);
#endif
