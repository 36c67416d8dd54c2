/* A library to preload: the number from which the hashes of a run start is 0, which everyone knows. */
#include <stddef.h>
#include <string.h>

int getentropy(void *bytes, size_t size) {
    memset(bytes, 0, size);
    return 0;
}
