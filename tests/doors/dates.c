/* The format of tests/dates.rs: dates, instants and identifiers, which need no file. */
#include <inttypes.h>
#include <stdio.h>

#include "doors.h"

static void date_out(bytes_t *batch) {
    uint64_t year = take_number(batch), month = take_number(batch), day = take_number(batch);
    sp3_date_answer_t answer = sp3_date(year, month, day);
    printf("date %zu %" PRIu64 " %" PRIu64 " %" PRIu64 "\n", answer.refusal, answer.mjd, answer.week, answer.seconds);
}

static void moment_out(bytes_t *batch) {
    sp3_moment_answer_t answer = sp3_moment(take_number(batch));
    sp3_moment_t m = answer.moment;
    printf("moment %zu %" PRIu64 " %" PRIu64 " %" PRIu64, answer.refusal, m.year, m.month, m.day);
    printf(" %" PRIu64 " %" PRIu64 " %" PRIu64 "\n", m.hour, m.minute, m.second8);
}

static void identifier_asked(bytes_t *batch) {
    bytes_t text = shown_bytes(take_bytes(batch, take_number(batch)));
    printf("identifier %" PRIu64 "\n", sp3_identifier(text.bytes, text.length));
}

void dates_case(bytes_t *batch) {
    if (take_word(batch, "date")) {
        date_out(batch);
    } else if (take_word(batch, "moment")) {
        moment_out(batch);
    } else if (take_word(batch, "identifier")) {
        identifier_asked(batch);
    } else {
        stop("a case is no date, moment or identifier");
    }
}
