#include "text/words.h"

int main(void) {
    FILE *stream = tmpfile();
    if (!stream) {
        return 1;
    }
    fputs("two  words\n", stream);
    rewind(stream);
    return count_words(stream) != 2;
}
