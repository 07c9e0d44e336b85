// Stands in for the C library's stdio.h: as much of it as the programs here use.
#pragma once

#include <stddef.h>

typedef struct _IO_FILE FILE;
extern FILE *stdin, *stdout;

int printf(const char *format, ...) __attribute__((format(printf, 1, 2)));
size_t fread(void *items, size_t size, size_t count, FILE *file);
size_t fwrite(const void *items, size_t size, size_t count, FILE *file);
