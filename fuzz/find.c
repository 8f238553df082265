/* Finding in any bytes, with any mark: the independent program's part, which lies in the certificate. An input is the mark's length
   (0 to 4, the first byte modulo 5), the mark, and the certificate. */
#include "common.h"

static void find(const uint8_t *certificate, size_t certificate_length, const uint8_t *mark, size_t mark_length) {
    struct guarded_place guarded = GUARDED_PLACE;
    uint64_t start;
    uint64_t length = nyargulet_find(certificate, certificate_length, mark, mark_length, &guarded.place);
    demand_guarded(&guarded);
    note(length != 0, guarded.place);
    DEMAND(length == independent_find(certificate, certificate_length, mark, mark_length, &start));
    DEMAND(guarded.place == start);
    DEMAND(start <= certificate_length && length <= certificate_length - start);
}

int LLVMFuzzerTestOneInput(const uint8_t *data, size_t size) {
    size_t mark_length = size < 1 ? 0 : data[0] % 5;
    if (size < 1 + mark_length) return 0;
    const uint8_t *certificate = data + 1 + mark_length;
    uint8_t *mark = malloc(mark_length); /* memory of its own, so that the sanitizer sees its end */
    DEMAND(mark != NULL);
    memcpy(mark, data + 1, mark_length);
    find(certificate, size - 1 - mark_length, mark, mark_length);
    DEMAND(memcmp(mark, data + 1, mark_length) == 0);
    free(mark);
    return 0;
}
