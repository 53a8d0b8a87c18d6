// The calls that can be audited: the library's, C code that the audit must catch or pass, and the controls of its parts.
#include "subjects.h"

#include <stddef.h>
#include <string.h>

// Those of controls.s, each with how many of the exhaustive cases it needs.
#define CONTROLS(each)      \
    each(general, 1)        \
    each(high_bits, 1)      \
    each(flags, 1)          \
    each(vectors, 1)        \
    each(upper_halves, 1)   \
    each(reads, 1)          \
    each(stack_writes, 1)   \
    each(scratch_writes, 1) \
    each(addresses, 1)      \
    each(entry, 1)          \
    each(bytes, 1)          \
    each(answers, 1)        \
    each(flow, 1)           \
    each(instructions, 1)   \
    each(stack_stores, 1)   \
    each(scratch_stores, 1) \
    each(widths, 2)         \
    each(length, 1)         \
    each(depth, 1)          \
    each(vector_store, 2)

// Those of controls.s that take another way on a table that is not balanced.
#define TABLE_CONTROLS(each)   \
    each(few_values, 8)        \
    each(few_values_widths, 8) \
    each(few_values_pace, 8)   \
    each(pace, 8)              \
    each(wide_outputs, 8)      \
    each(widest_outputs, 10)

// Those of frame_controls.s.
#define FRAME_CONTROLS(each) \
    each(alone)              \
    each(twos)               \
    each(bits)               \
    each(beside)             \
    each(beside_vector)      \
    each(beside_both)        \
    each(later)              \
    each(flow)               \
    each(scratch_length)     \
    each(answers)            \
    each(copies)

// Those of code/screen.c and screen_controls.s.
#define SCREENS(each)         \
    each(ring_screen)         \
    each(leaving_screen)      \
    each(skipping_screen)     \
    each(copying_screen)      \
    each(starting_screen)     \
    each(filling_screen)      \
    each(moving_screen)       \
    each(rereading_screen)    \
    each(table_screen)        \
    each(screen_control_flow) \
    each(screen_control_answers)

// Those of select_baseline.c in tests/speed and of selection_controls.s.
#define SELECTIONS(each)           \
    each(unguarded_select)         \
    each(early_select)             \
    each(late_select)              \
    each(compared_select)          \
    each(joined_select)            \
    each(select_control_answers)   \
    each(select_control_flow)      \
    each(select_control_widths)

// Only their addresses are used: the arguments are laid out by hand.
#define DECLARATION(name, cases) void control_##name(void);
#define ROW(name, cases) {#name, control_##name, 0, cases, CONTROL},
#define TABLE_ROW(name, cases) {#name, control_##name, 0, cases, CONTROL | BY_TABLE},
#define FRAME_DECLARATION(name) void frame_control_##name(void);
#define FRAME_ROW(name) {"frame_" #name, frame_control_##name, 0},
#define SCREEN_DECLARATION(name) void name(void);
#define SCREEN_ROW(name) {#name, name},
#define SELECTION_ROW(name) {#name, name, 0, 0},

CONTROLS(DECLARATION)
TABLE_CONTROLS(DECLARATION)
FRAME_CONTROLS(FRAME_DECLARATION)
SCREENS(SCREEN_DECLARATION)
SELECTIONS(SCREEN_DECLARATION)
void control_log_entries(void);
void control_log_reads(void);
void control_joined_leftovers(void);
void control_joined_second_half(void);
void control_single_leftovers(void);
void control_early_exit(void);
void control_reading_clear(void);
void control_short_clear(void);
void cippazhey_plain_call(void);
void cippazhey_clear(void);
void cippazhey_logged_call(void);
void cippazhey_encrypt_frame(void);
void cippazhey_screen(void);
void cippazhey_select(void);
void cippazhey_logged_select(void);
void guarded_select(void);
void guarded_logged_select(void);
void select_control_log_entries(void);
void guarded_frame(void);
void unguarded_frame(void);
void joined_frame(void);
void beside_frame(void);
void frame_control_neighbours(void);
void frame_stand_in(void);
void output_masks_5(void);
void input_masks_5(void);
void one_pass_5(void);
void two_bytes_5(void);
void guarded_plain_call(void);
void guarded_logged_call(void);
void guarded_bare_call(void);
void baseline_plain_call(void);

const struct subject *subject_named(const char *name) {
    static const struct subject subjects[] = {
        {"plain", cippazhey_plain_call, 0, 11, BY_TABLE},
        {"plain_not_affine", cippazhey_plain_call, 12, 1, 0},
        {"logged", cippazhey_logged_call, 0, 2, LOGGED},
        {"guarded", guarded_plain_call, 0, 3, CONTROL | BY_WIDTH},
        {"unguarded", baseline_plain_call, 0, 3, CONTROL | BY_WIDTH},
        {"guarded_logged", guarded_logged_call, 0, 2, CONTROL | LOGGED | BY_WIDTH},
        {"output_masks_5", output_masks_5, 0, 3, CONTROL},
        {"input_masks_5", input_masks_5, 0, 3, CONTROL},
        {"one_pass_5", one_pass_5, 0, 3, CONTROL},
        {"two_bytes_5", two_bytes_5, 0, 3, CONTROL},
        {"two_bytes_5_not_affine", two_bytes_5, 12, 1, CONTROL},
        {"log_entries", control_log_entries, 0, 1, CONTROL | LOGGED},
        {"log_reads", control_log_reads, 0, 1, CONTROL | LOGGED},
        {"inputs", guarded_bare_call, 11, 1, CONTROL}, // it checks no table, so it looks up in one that is not fit
        {"used", cippazhey_plain_call, 12, 1, USED},
        {"used_by_5", cippazhey_plain_call, 12, 1, USED | LEFT_BY_5},
        {"joined_leftovers", control_joined_leftovers, 12, 1, CONTROL | USED},
        {"joined_leftovers_affine", control_joined_leftovers, 0, 3, CONTROL | USED},
        {"joined_second_half", control_joined_second_half, 12, 1, CONTROL | USED | LEFT_BY_5},
        {"single_leftovers", control_single_leftovers, 12, 1, CONTROL | USED},
        {"early_exit", control_early_exit, 12, 1, CONTROL | USED},
        {"clear", cippazhey_clear, 0, 3, CLEARS},
        {"reading_clear", control_reading_clear, 0, 1, CONTROL | CLEARS},
        {"short_clear", control_short_clear, 0, 1, CONTROL | CLEARS},
        TABLE_CONTROLS(TABLE_ROW) CONTROLS(ROW)};
    for (size_t i = 0; i < sizeof subjects / sizeof *subjects; i++)
        if (!strcmp(subjects[i].name, name)) return &subjects[i];
    return NULL;
}

const struct frame *frame_named(const char *name) {
    static const struct frame frames[] = {{"frame", cippazhey_encrypt_frame, 10},
                                          {"guarded_frame", guarded_frame, 2},
                                          {"unguarded_frame", unguarded_frame, 2},
                                          {"joined_frame", joined_frame, 2},
                                          {"beside_frame", beside_frame, 2},
                                          {"frame_neighbours", frame_control_neighbours, 2},
                                          {"frame_stand_in", frame_stand_in, 0},
                                          FRAME_CONTROLS(FRAME_ROW)};
    for (size_t i = 0; i < sizeof frames / sizeof *frames; i++)
        if (!strcmp(frames[i].name, name)) return &frames[i];
    return NULL;
}

const struct screen *screen_named(const char *name) {
    static const struct screen screens[] = {{"screen", cippazhey_screen}, SCREENS(SCREEN_ROW)};
    for (size_t i = 0; i < sizeof screens / sizeof *screens; i++)
        if (!strcmp(screens[i].name, name)) return &screens[i];
    return NULL;
}

const struct selection *selection_named(const char *name) {
    static const struct selection selections[] = {{"select", cippazhey_select, 6, 0},
                                                  {"logged_select", cippazhey_logged_select, 1, LOGGED},
                                                  {"guarded_select", guarded_select, 1, 0},
                                                  {"guarded_logged_select", guarded_logged_select, 0, LOGGED},
                                                  {"select_control_log_entries", select_control_log_entries, 0, LOGGED},
                                                  SELECTIONS(SELECTION_ROW)};
    for (size_t i = 0; i < sizeof selections / sizeof *selections; i++)
        if (!strcmp(selections[i].name, name)) return &selections[i];
    return NULL;
}
