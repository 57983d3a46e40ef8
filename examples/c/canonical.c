/* Prints the canonical text of a problem's text: canonical FILE. Of a text that is refused it says why, and ends with status 1. */
#include <stdio.h>

#include "slew.h"

int main(int argc, char **argv)
{
    static uint8_t text[SLEW_TEXT_MOST + 1], out[SLEW_TEXT_MOST];
    FILE *file = argc == 2 ? fopen(argv[1], "rb") : NULL;
    if (!file) {
        fprintf(stderr, "usage: canonical FILE\n");
        return 2;
    }
    /* a longer text is refused, so one byte more is all that is looked at */
    size_t text_bytes = fread(text, 1, sizeof text, file), bytes, place;
    fclose(file);
    size_t number = slew_canonical(text, text_bytes, out, sizeof out, &bytes, &place);
    fwrite(out, 1, bytes, stdout);
    if (number)
        fprintf(stderr, "refusal %zu, place %zu\n", number, place);
    return number != 0;
}
