/* The check on any bytes: the independent program's number and place, and nothing written but the place. */
#include "common.h"

int LLVMFuzzerTestOneInput(const uint8_t *data, size_t size) {
    struct guarded_place guarded = GUARDED_PLACE;
    uint64_t place;
    uint8_t number = nyargulet_check(data, size, &guarded.place);
    demand_guarded(&guarded);
    note(number, guarded.place);
    DEMAND(number == independent_check(data, size, &place));
    DEMAND(guarded.place == place);
    DEMAND(number != 0 || place == size);
    return 0;
}
