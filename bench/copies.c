/* Counts the copies of a whole record: preloaded, it stands before memcpy and tells at the end how many calls copied 3,328 bytes or more
   (the entries alone are 3,328) and fewer than 8,192.
     cc -O1 -fno-builtin -shared -fPIC -o target/copies.so bench/copies.c
     LD_PRELOAD=target/copies.so crates/run/out/run < input                                                                              */
#include <stddef.h>
#include <stdio.h>

static unsigned long copies;

void *memcpy(void *to, const void *from, size_t n)
{
    if (n >= 3328 && n < 8192)
        copies++;
    for (size_t i = 0; i < n; i++)
        ((volatile char *)to)[i] = ((const char *)from)[i];
    return to;
}

__attribute__((destructor)) static void tell(void)
{
    fprintf(stderr, "copies of a whole record: %lu\n", copies);
}
