/* The proved engine as the driver expects an engine: memory, set-up and one run. */
#include "../embed/leprahoon.h"
#include "engine.h"

int64_t proved_run(const uint8_t *image, size_t len, uint64_t steps, struct engine_end *end) {
    static int32_t store[LEPRAHOON_STORE];
    static uint64_t tables[LEPRAHOON_TABLES];
    static int32_t values[LEPRAHOON_VALUES];
    uint64_t registers[LEPRAHOON_REGISTERS];
    uint64_t report[LEPRAHOON_REPORT];

    leprahoon_set_up(image, len, store, LEPRAHOON_STORE, tables, LEPRAHOON_TABLES, values, LEPRAHOON_VALUES, registers, report);
    if (report[0] != LEPRAHOON_REFUSED) {
        leprahoon_run(image, len, store, LEPRAHOON_STORE, tables, LEPRAHOON_TABLES, values, LEPRAHOON_VALUES, registers, steps, report);
    }
    end->state = (int)report[0];
    end->number = (int)report[1];
    end->thread = report[0] == LEPRAHOON_REFUSED ? 0 : (int)registers[LEPRAHOON_THREAD];
    end->place = report[0] == LEPRAHOON_REFUSED ? (int)report[2] : (int)registers[LEPRAHOON_PC];
    end->ended = report[0] != LEPRAHOON_REFUSED && tables[LEPRAHOON_PLACES] == LEPRAHOON_ENDED;
    end->result = end->ended ? values[0] : 0;
    return (int64_t)report[3];
}
