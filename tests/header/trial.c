/* Bytes, scenes and ticks, all by the names of post.h. */
#include "trial.h"

#include <string.h>

enum { UNWRITTEN = 0xEE };

uint8_t state[ROOM], input[ROOM], output[ROOM];
uint32_t power_limit = USUAL_LIMIT;

void put_frame(uint8_t *record, uint16_t identifier, const uint8_t *data) {
    post_put_u16(record + POST_FRAME_IDENTIFIER, identifier);
    record[POST_FRAME_LENGTH] = POST_FRAME_DATA_LENGTH;
    memcpy(record + POST_FRAME_DATA, data, POST_FRAME_DATA_LENGTH);
}

static uint64_t number_at(const uint8_t *place, size_t length) {
    return length == 1   ? *place
           : length == 2 ? post_get_u16(place)
           : length == 4 ? post_get_u32(place)
                         : post_get_u64(place);
}

uint64_t state_at(size_t place, size_t length) {
    return number_at(state + POST_STATE_LEAD(LEAD) + place, length);
}

uint64_t output_at(size_t place, size_t length) {
    return number_at(output + POST_OUTPUT_LEAD(LEAD) + place, length);
}

/* The three frames stand in the last records, so that place and number of the records count. */
static void put_frames(uint8_t *record, const struct scene *scene) {
    static const uint8_t seen[3] = {POST_SEEN_H100, POST_SEEN_H101, POST_SEEN_H102};
    static const uint16_t identifiers[3] = {POST_H100, POST_H101, POST_H102};
    uint8_t data[3][POST_FRAME_DATA_LENGTH] = {{0}};

    post_put_u16(data[0] + POST_H100_MAXIMUM_VOLTAGE, MAXIMUM_VOLTAGE);
    data[1][POST_H101_TIME_TENS] = scene->tens;
    data[1][POST_H101_TIME_MINUTES] = TIME_MINUTES;
    post_put_u16(data[2] + POST_H102_TARGET_VOLTAGE, scene->target);
    data[2][POST_H102_REQUEST] = REQUEST;
    data[2][POST_H102_FAULTS] = scene->byte[FAULTS];
    data[2][POST_H102_STATUS] = scene->byte[STATUS];
    for (unsigned i = 0; i < 3; i++)
        if (scene->frames & seen[i])
            put_frame(record + POST_INPUT_FRAME(POST_FRAME_RECORDS - 3 + i), identifiers[i],
                      data[i]);
    record[POST_INPUT_FRAME_COUNT] = POST_FRAME_RECORDS;
}

void put_scene(const struct scene *scene) {
    uint8_t *record = input + POST_INPUT_LEAD(LEAD);
    memset(input, 0, sizeof input);
    post_put_u32(input + POST_INPUT_POWER_LIMIT, power_limit);
    record[POST_INPUT_CONTACTS] = scene->byte[CONTACTS];
    record[POST_INPUT_PRESENT] = scene->byte[PRESENT];
    post_put_float(record + POST_INPUT_VOLTS, scene->volts);
    post_put_float(record + POST_INPUT_AMPERES, scene->amperes);
    post_put_float(record + POST_INPUT_INSULATION, scene->ohms);
    put_frames(record, scene);
}

uint32_t tick_input(void) {
    memset(output, UNWRITTEN, sizeof output);
    return post_tick(state, POST_STATE_LENGTH(LEADS), input, POST_INPUT_LENGTH(LEADS), output,
                     POST_OUTPUT_LENGTH(LEADS));
}

uint32_t tick_scene(const struct scene *scene) {
    put_scene(scene);
    return tick_input();
}

void set_up(void) {
    CHECK(post_setup(LEADS, RATED_VOLTS, RATED_AMPERES, CABLE_RESISTANCE, VOLTS_ERROR,
                     AMPERES_ERROR, state, POST_STATE_LENGTH(LEADS)),
          POST_DONE);
}

void reach(unsigned phase) {
    set_up();
    for (unsigned i = 1; i <= phase; i++)
        CHECK(tick_scene(&way[i].scene), POST_DONE);
}
