/*
 * Makes one allocation of a program fail: the call of malloc, realloc or the aligned ones whose
 * number, from 1 on, stands in the environment as FAIL_ALLOC. At the program's end the number of calls
 * goes to the file that FAIL_ALLOC_COUNT names. Loaded by LD_PRELOAD; for tests alone.
 */
#define _GNU_SOURCE
#include <dlfcn.h>
#include <errno.h>
#include <stddef.h>
#include <stdio.h>
#include <stdlib.h>

static unsigned long calls;

/* Whether this call is the one that is to fail. */
static int fails(void)
{
	const char *number = getenv("FAIL_ALLOC");

	calls++;
	if (!number || strtoul(number, NULL, 10) != calls)
		return 0;
	errno = ENOMEM;
	return 1;
}

void *malloc(size_t size)
{
	static void *(*next)(size_t);

	if (!next)
		next = (void *(*)(size_t))dlsym(RTLD_NEXT, "malloc");
	return fails() ? NULL : next(size);
}

void *realloc(void *old, size_t size)
{
	static void *(*next)(void *, size_t);

	if (!next)
		next = (void *(*)(void *, size_t))dlsym(RTLD_NEXT, "realloc");
	return fails() ? NULL : next(old, size);
}

void *aligned_alloc(size_t align, size_t size)
{
	static void *(*next)(size_t, size_t);

	if (!next)
		next = (void *(*)(size_t, size_t))dlsym(RTLD_NEXT, "aligned_alloc");
	return fails() ? NULL : next(align, size);
}

int posix_memalign(void **place, size_t align, size_t size)
{
	static int (*next)(void **, size_t, size_t);

	if (!next)
		next = (int (*)(void **, size_t, size_t))dlsym(RTLD_NEXT, "posix_memalign");
	return fails() ? ENOMEM : next(place, align, size);
}

__attribute__((destructor)) static void tell(void)
{
	const char *name = getenv("FAIL_ALLOC_COUNT");
	unsigned long count = calls; /* without those of the file below */
	FILE *file = name ? fopen(name, "w") : NULL;

	if (file) {
		fprintf(file, "%lu\n", count);
		fclose(file);
	}
}
