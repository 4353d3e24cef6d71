/* The figures of a library's sheet against the sheet, for the tests: figures FILE.. prints of each what the two calls
   reply, the five figures between. Each call has outputs of several lengths, and of bytes that must stay as they were
   where nothing is to be written; ends with 1 where a call does not keep to what the header says. */
#include <inttypes.h>
#include <stdio.h>
#include <stdlib.h>

#include "library.h"

enum { UNTOUCHED = 0xa5, MORE = 65536, ROOM = MSFT_MOST_FIGURE + 2 };

static uint8_t room[ROOM];
static int status = DONE;

static void need(bool kept, const library *l, const char *what, size_t out_len)
{
    if (kept)
        return;
    printf("%s: %s, with %zu bytes of output\n", l->path, what, out_len);
    status = DIFFERENT;
}

typedef int64_t call(const uint8_t *lib, size_t lib_len, uint8_t *out, size_t out_len);

/* What the call replies to an output of so many bytes; behind those that it says it wrote, if any, all must be as before,
   also past the output's end. */
static int64_t reply_to(call *of, const library *l, size_t out_len, const char *what)
{
    size_t looked_at = out_len + 2 < ROOM ? out_len + 2 : ROOM;
    memset(room, UNTOUCHED, looked_at);
    int64_t reply = of(BYTES(l), room, out_len);
    size_t kept = reply < 0 ? 0 : (size_t)reply;
    need(kept <= out_len, l, what, out_len);
    while (kept < looked_at && room[kept] == UNTOUCHED)
        kept++;
    need(kept == looked_at, l, what, out_len);
    return reply;
}

/* The figures, and that outputs of other lengths have the same reply, or 12 where they are too short. */
static int64_t figures(const library *l, msft_figures *f)
{
    static const size_t lengths[] = {0, 19, 21, 1000};
    uint8_t first[MSFT_FIGURES_BYTES];
    int64_t reply = reply_to(msft_sheet_figures, l, sizeof first, "figures");
    memcpy(first, room, sizeof first);
    *f = msft_unpack_figures(first);
    need(reply < 0 || reply == MSFT_FIGURES_BYTES, l, "figures have another length", sizeof first);
    need(reply != -MSFT_NO_SPACE && reply != -MSFT_NOTHING_THERE, l, "figures have that refusal", sizeof first);
    for (size_t i = 0; i < sizeof lengths / sizeof *lengths; i++) {
        int64_t expected = 0 < reply && lengths[i] < sizeof first ? -MSFT_NO_SPACE : reply;
        need(reply_to(msft_sheet_figures, l, lengths[i], "figures") == expected, l, "figures have another reply", lengths[i]);
        if (0 < expected)
            need(memcmp(first, room, sizeof first) == 0, l, "other figures", lengths[i]);
    }
    return reply;
}

/* That the sheet call replies so to an output of so many bytes. */
static void sheet_as(const library *l, int64_t expected, size_t out_len)
{
    need(reply_to(msft_sheet, l, out_len, "sheet") == expected, l, "the sheet has another reply", out_len);
}

static void hold(const library *l)
{
    msft_figures f;
    int64_t reply = figures(l, &f);
    if (reply < 0) {
        printf("%s: %" PRId64 "\n", l->path, reply);
        sheet_as(l, reply, 0);
        sheet_as(l, reply, MORE);
        return;
    }
    printf("%s: %" PRIu32 " bytes, %" PRIu32 " functions, %" PRIu32 " parameters, %" PRIu32 " variables, %" PRIu32
           " references\n", l->path, f.length, f.functions, f.parameters, f.variables, f.references);
    if (MSFT_MOST_FIGURE < f.length) {
        sheet_as(l, -MSFT_NO_SPACE, 0);
        sheet_as(l, -MSFT_NO_SPACE, ROOM);
        return;
    }
    sheet_as(l, -MSFT_NO_SPACE, 0);
    sheet_as(l, -MSFT_NO_SPACE, f.length - 1);
    sheet_as(l, f.length, f.length);
    sheet_as(l, f.length, f.length + 1);
    if (f.length + MORE < ROOM)
        sheet_as(l, f.length, f.length + MORE);
}

int main(int argc, char **argv)
{
    library l;
    for (int i = 1; i < argc; i++) {
        if (!load(&l, argv[i]))
            return TROUBLE;
        hold(&l);
        unload(&l);
    }
    return status;
}
