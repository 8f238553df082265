/* The analysis of any matrix, into any room: the independent program's number and place, every byte of the output, and certificates
   that both checks accept, with the independent program's D and F. An input is p, n (a low byte and one at bit 32 each), the room
   (two bytes, low first), and the matrix. */
#include "common.h"

enum { HEAD = 6, MARGIN = 64 };

static uint64_t wide(const uint8_t *two) { return two[0] + ((uint64_t)two[1] << 32); }

static uint8_t before(size_t at) { return (uint8_t)(at * 7 + 3); }

/* A certificate that was made: accepted by both checks, and with the forms of its matrix. */
static void demand_certificate(const uint8_t *made, size_t length) {
    uint64_t place;
    DEMAND(nyargulet_check(made, length, &place) == 0 && place == length);
    DEMAND(independent_check(made, length, &place) == 0 && place == length);
    DEMAND(independent_forms(made, length));
}

/* Every byte from one place to another is as it was before the call. */
static void demand_untouched(const uint8_t *whole, size_t from, size_t to) {
    for (size_t at = from; at < to; at++) DEMAND(whole[at] == before(at));
}

int LLVMFuzzerTestOneInput(const uint8_t *data, size_t size) {
    if (size < HEAD) return 0;
    uint64_t p = wide(data), n = wide(data + 2), place;
    size_t room = data[4] + 256 * (size_t)data[5];
    uint8_t *whole = malloc(MARGIN + room), *out = whole + MARGIN;
    DEMAND(whole != NULL);
    for (size_t at = 0; at < MARGIN + room; at++) whole[at] = before(at);

    struct guarded_place guarded = GUARDED_PLACE;
    uint8_t number = nyargulet_analysis(p, n, data + HEAD, size - HEAD, out, room, &guarded.place);
    demand_guarded(&guarded);
    note(number, guarded.place);
    DEMAND(number == independent_analysis(p, n, data + HEAD, size - HEAD, room, &place));
    DEMAND(guarded.place == place);
    size_t written = number == 0 ? (size_t)place : 0;
    DEMAND(written <= room);
    demand_untouched(whole, 0, MARGIN);
    demand_untouched(whole, MARGIN + written, MARGIN + room);
    if (number == 0) demand_certificate(out, written);
    free(whole);
    return 0;
}
