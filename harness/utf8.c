#include "utf8.h"

#include <string.h>

/* A text is lent alone: its bytes need be no library. */
static msft_text_checked check(text t)
{
    uint8_t out[MSFT_TEXT_CHECK_BYTES];
    msft_text_checked nothing = {1, 0};
    if (msft_text_check(t.bytes, t.len, 0, t.len, out, sizeof out) < 0)
        return nothing;
    return msft_unpack_text_checked(out);
}

bool is_utf8(text t)
{
    return check(t).is_valid;
}

/* How many of the first bytes of a text, `most` or fewer, are whole characters. The check found no fault in so
   many: they end at worst in three bytes of a character of four. */
static size_t whole_characters(text t, size_t most)
{
    t.len = most;
    while (!is_utf8(t))
        t.len--;
    return t.len;
}

/* Whether a text that the check looked at to its last byte breaks off in the character that begins at `start`, or
   that byte has no place in it. The check does not say, but looks at a byte more only where the text breaks off.
   (In a copy: the file may end with the text.) */
static bool breaks_off(text t, size_t start)
{
    uint8_t character[5] = {0};
    text longer = {character, t.len - start + 1};
    memcpy(character, t.bytes + start, t.len - start);
    return check(longer).looked_at == longer.len;
}

/* The byte is told with where it stands in the file, for a hex viewer. One that has no place is told with the bytes
   of its character before it: in a code page it is often a plain letter, behind the byte that is not UTF-8. */
void put_fault(cell *c, const library *l, text t)
{
    size_t looked = check(t).looked_at, last = looked - 1;
    size_t start = whole_characters(t, last);
    bool broken = looked == t.len && breaks_off(t, start);
    put(c, broken ? "its last character breaks off behind " : "");
    put(c, "byte %zu, 0x%02x at 0x%zx in the file", last, t.bytes[last], (size_t)(t.bytes - l->bytes) + last);
    if (broken)
        return;
    put(c, start == last ? ", begins no character" : ", cannot follow");
    for (size_t i = start; i < last; i++)
        put(c, " 0x%02x", t.bytes[i]);
}
