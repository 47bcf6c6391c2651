#pragma once
#include <stdarg.h>
#include <stddef.h>
#define EOF (-1)
#ifdef __cplusplus
extern "C" {
#endif
typedef struct _IO_FILE FILE;
extern FILE *stdin, *stdout, *stderr;
FILE *fopen(const char *, const char *);
int fclose(FILE *);
int ferror(FILE *);
size_t fread(void *, size_t, size_t, FILE *);
size_t fwrite(const void *, size_t, size_t, FILE *);
int getchar(void);
int printf(const char *, ...);
int fprintf(FILE *, const char *, ...);
int vsnprintf(char *, size_t, const char *, va_list);
int puts(const char *);
#ifdef __cplusplus
}
#endif
