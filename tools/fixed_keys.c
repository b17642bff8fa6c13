/* fixed_keys: a library that a program is started with (LD_PRELOAD) so that the system draws the same keys in each run, and
   its instructions can be counted. */
#include <stddef.h>

int getentropy(void *at, size_t size) {
    for (size_t place = 0; place < size; place++) ((unsigned char *)at)[place] = 7 * place + 1;
    return 0;
}
