/* Texts and verdicts in JSON. */
#include <inttypes.h>

#include "command.h"

/* The length of the UTF-8 character that a text begins with, or 0 where it begins with none. The text ends with a zero byte, at which every
   character that is cut off stops. */
static int utf8_length(const unsigned char *c)
{
    int length = c[0] < 0x80 ? 1 : c[0] >= 0xC2 && c[0] < 0xE0 ? 2 : c[0] >= 0xE0 && c[0] < 0xF0 ? 3 : c[0] >= 0xF0 && c[0] < 0xF5 ? 4 : 0;
    for (int i = 1; i < length; i++)
        if ((c[i] & 0xC0) != 0x80)
            return 0;
    bool too_long = (c[0] == 0xE0 && c[1] < 0xA0) || (c[0] == 0xF0 && c[1] < 0x90);
    bool surrogate = c[0] == 0xED && c[1] >= 0xA0, too_large = c[0] == 0xF4 && c[1] >= 0x90;
    return too_long || surrogate || too_large ? 0 : length;
}

void print_json(const char *text)
{
    const unsigned char *c = (const unsigned char *)text;
    putchar('"');
    while (*c) {
        int length = utf8_length(c);
        if (length == 0)
            printf("\\ufffd");
        else if (*c == '"' || *c == '\\')
            printf("\\%c", *c);
        else if (*c < 0x20 || *c == 0x7F)
            printf("\\u%04x", (unsigned)*c);
        else
            fwrite(c, 1, (size_t)length, stdout);
        c += length ? length : 1;
    }
    putchar('"');
}

void print_verdict_members(const char *path, cc100_verdict v, uint32_t words)
{
    printf("\"file\":");
    print_json(path);
    if (v.number == CC100_DONE)
        printf(",\"verdict\":\"accept\",\"words\":%" PRIu32, words);
    else
        printf(",\"verdict\":\"refuse\",\"number\":%" PRIu32 ",\"place\":", v.number);
    if (v.number != CC100_DONE)
        printf(v.place == CC100_NO_PLACE ? "null" : "%" PRIu32, v.place);
}
