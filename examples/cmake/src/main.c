#include "text/words.h"

int main(void) {
    printf("%lu %s\n", count_words(stdin), UNIT);
    return 0;
}
