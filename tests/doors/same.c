/* Answers compared part by part: structs may have bytes between their parts that hold anything. */
#include <math.h>
#include <string.h>

#include "doors.h"

static bool same_texts(sp3_texts_t one, sp3_texts_t other) {
    return memcmp(one.data_used, other.data_used, 5) == 0 && memcmp(one.coordinates, other.coordinates, 5) == 0 &&
           memcmp(one.orbit, other.orbit, 3) == 0 && memcmp(one.agency, other.agency, 4) == 0;
}

bool same_header(sp3_header_t one, sp3_header_t other) {
    return one.velocity == other.velocity && one.start8 == other.start8 && one.epochs == other.epochs && one.interval8 == other.interval8 &&
           same_texts(one.texts, other.texts) && one.satellites == other.satellites && one.comments == other.comments &&
           one.file_type == other.file_type && memcmp(one.time_system, other.time_system, 3) == 0 && one.bases.place == other.bases.place &&
           one.bases.clock == other.bases.clock;
}

bool is_no_header(sp3_header_t header) {
    sp3_header_t none = {.file_type = ' '};
    memset(&none.texts, ' ', sizeof none.texts);
    memset(none.time_system, ' ', sizeof none.time_system);
    return same_header(header, none);
}

static bool same_state(sp3_state_t one, sp3_state_t other) {
    return one.due == other.due && one.also == other.also && one.lines == other.lines && one.left == other.left &&
           one.comments == other.comments && one.velocity == other.velocity && one.satellites == other.satellites &&
           one.epochs == other.epochs && one.at8 == other.at8 && one.gap8 == other.gap8 && one.interval8 == other.interval8;
}

bool same_spot(sp3_spot_t one, sp3_spot_t other) { return one.at == other.at && same_state(one.state, other.state); }

bool same_line(sp3_line_answer_t one, sp3_line_answer_t other) {
    return one.refusal == other.refusal && one.column == other.column && one.finished == other.finished && same_spot(one.next, other.next);
}

/* The same number, or none on both sides. */
static bool same_float(double one, double other) { return one == other || (isnan(one) && isnan(other)); }

bool same_row(sp3_row_t one, sp3_row_t other) {
    return same_float(one.x, other.x) && same_float(one.y, other.y) && same_float(one.z, other.z) && same_float(one.clock, other.clock) &&
           one.place_absent == other.place_absent && one.clock_absent == other.clock_absent;
}

bool is_no_row(sp3_row_t row) { return same_row(row, (sp3_row_t){NAN, NAN, NAN, NAN, true, true}); }

void check_reading(sp3_reading_t reading) {
    if (reading.refusal == 0) {
        check(reading.line == 0 && reading.column == 0, "a line or a column beside no refusal");
        check(reading.version == 'c' || reading.version == 'd', "no version beside no refusal");
    } else {
        check(reading.version == ' ', "a version beside a refusal");
        check(reading.length == 0, "a length beside a refusal");
        check(is_no_header(reading.header), "a header beside a refusal");
    }
}
