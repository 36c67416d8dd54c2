#ifndef TEXT_WORDS_H
#define TEXT_WORDS_H

#include <stdio.h>

/* How many words a stream has, between blanks and line ends. */
unsigned long count_words(FILE *stream);

#endif
