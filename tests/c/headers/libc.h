/* The few calls of the C library that the viewer's tests make, declared here so that the kit's compiler, which has no headers, builds them. */
#ifndef VIEWER_LIBC_H
#define VIEWER_LIBC_H
#include <stddef.h>
#include <stdint.h>
int printf(const char *format, ...);
int open(const char *path, int flags, ...);
long read(int file, void *bytes, size_t length);
int close(int file);
void exit(int status) __attribute__((noreturn));
void *memcpy(void *to, const void *from, size_t length);
void *memset(void *to, int byte, size_t length);
int memcmp(const void *a, const void *b, size_t length);
int atoi(const char *text);
typedef union {
    char bytes[56];
    long aligned;
} pthread_attr_t;
typedef unsigned long pthread_t;
int pthread_attr_init(pthread_attr_t *attributes);
int pthread_attr_setstacksize(pthread_attr_t *attributes, size_t size);
int pthread_create(pthread_t *thread, const pthread_attr_t *attributes, void *(*run)(void *), void *argument);
int pthread_join(pthread_t thread, void **result);
#endif
