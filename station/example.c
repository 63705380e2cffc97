/* Prints the key of a card file through the static library, then the mark of its refusal. */
#include "covshurii.h"

#include <stdio.h>
#include <stdlib.h>

int main(void) {
    static uint8_t cards[4097];
    size_t length = fread(cards, 1, sizeof cards, stdin);
    if (ferror(stdin)) {
        perror("cards");
        return 1;
    }
    size_t needed = covshurii_key(cards, length, NULL, 0);
    if (needed == COVSHURII_NO_MEMORY) {
        fputs("no memory\n", stderr);
        return 1;
    }
    uint8_t *key = malloc(needed + 1);
    if (key == NULL || covshurii_key(cards, length, key, needed) != needed) {
        fputs("no memory\n", stderr);
        return 1;
    }
    fwrite(key, 1, needed, stdout);
    printf("mark %u\n", (unsigned)covshurii_mark(cards, length));
    free(key);
    return 0;
}
