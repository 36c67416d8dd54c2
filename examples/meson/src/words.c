#include "text/words.h"

#include <ctype.h>

unsigned long count_words(FILE *stream) {
    unsigned long count = 0;
    int inside = 0;
    for (int byte = getc(stream); byte != EOF; byte = getc(stream)) {
        int blank = isspace(byte);
        if (!blank && !inside) {
            count++;
        }
        inside = !blank;
    }
    return count;
}
