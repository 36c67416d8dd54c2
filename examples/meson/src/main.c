#include "text/words.h"
#include "version.h"

int main(void) {
    printf("%lu %s, as version " VERSION " counts\n", count_words(stdin), UNIT);
    return 0;
}
