/* The functions of the C library that the tests call: the toolchain has the library and not its headers. */
#ifndef TESTS_LIBC_H
#define TESTS_LIBC_H

#include <stddef.h>

void *memset(void *to, int byte, size_t n);
void *memcpy(void *to, const void *from, size_t n);
void *memmove(void *to, const void *from, size_t n);
int memcmp(const void *a, const void *b, size_t n);
int strcmp(const char *a, const char *b);
int strncmp(const char *a, const char *b, size_t n);
size_t strlen(const char *s);
unsigned long strtoul(const char *s, char **end, int base);
int printf(const char *format, ...);
int fflush(void *all_streams);
void *malloc(size_t n);
void free(void *p);
_Noreturn void exit(int status);
int open(const char *path, int flags, ...);
long read(int file, void *to, size_t n);
int close(int file);

struct timespec {
    long tv_sec;
    long tv_nsec;
};
enum { CLOCK_OF_THIS_PROCESS = 2, CLOCK_THAT_NEVER_GOES_BACK = 1 };
int clock_gettime(int clock, struct timespec *out);

enum { MAY_READ = 1, MAY_WRITE = 2, MAY_NOTHING = 0, PRIVATE_AND_ANONYMOUS = 0x22 };
void *mmap(void *at, size_t n, int may, int flags, int file, long offset);
int mprotect(void *at, size_t n, int may);

typedef unsigned long pthread_t;
typedef union {
    char bytes[56];
    long aligned;
} pthread_attr_t;
int pthread_create(pthread_t *thread, const pthread_attr_t *attr, void *(*start)(void *), void *argument);
int pthread_join(pthread_t thread, void **result);
int pthread_attr_init(pthread_attr_t *attr);
int pthread_attr_setstack(pthread_attr_t *attr, void *lowest, size_t n);

#endif
