/*
 * Where the library reads and writes each field of the structs of include/polgamir.h, by number.
 * The same holds on every target, and a compiler that lays one of them out otherwise stops here.
 */
#ifndef POLGAMIR_LAYOUT_H
#define POLGAMIR_LAYOUT_H

#include <stddef.h>

#include "polgamir.h"

_Static_assert(__BYTE_ORDER__ == __ORDER_LITTLE_ENDIAN__, "the low byte of a number comes first");
_Static_assert(sizeof(float) == 4, "float");
#define AT(type, field, offset) _Static_assert(offsetof(type, field) == (offset), #type "." #field)
AT(polgamir_answer, number, 0);
AT(polgamir_answer, mask, 4);
AT(polgamir_answer, place, 8);
AT(polgamir_answer, arrival, 16);
_Static_assert(sizeof(polgamir_answer) == 24, "polgamir_answer");
AT(polgamir_part_answer, number, 0);
AT(polgamir_part_answer, mask, 4);
AT(polgamir_part_answer, place, 8);
AT(polgamir_part_answer, arrival, 16);
AT(polgamir_part_answer, rows, 20);
_Static_assert(sizeof(polgamir_part_answer) == 24, "polgamir_part_answer");
AT(polgamir_axis, start_position, 0);
AT(polgamir_axis, start_velocity, 8);
AT(polgamir_axis, target_position, 16);
AT(polgamir_axis, target_velocity, 24);
AT(polgamir_axis, target_acceleration, 32);
AT(polgamir_axis, target_tick, 40);
AT(polgamir_axis, target_kind, 48);
AT(polgamir_axis, speed_limit, 52);
AT(polgamir_axis, acceleration_limit, 56);
AT(polgamir_axis, half_period, 60);
AT(polgamir_axis, damping_kind, 64);
AT(polgamir_axis, second_weight, 68);
AT(polgamir_axis, swing_ratio, 72);
AT(polgamir_axis, first_peak, 76);
AT(polgamir_axis, second_peak, 80);
AT(polgamir_axis, second_sway_given, 84);
AT(polgamir_axis, second_half_period, 88);
_Static_assert(sizeof(polgamir_axis) == 96, "polgamir_axis");
AT(polgamir_job, mask, 0);
AT(polgamir_job, asked, 4);
AT(polgamir_job, axes, 8);
AT(polgamir_job, windows, 584);
_Static_assert(sizeof(polgamir_job) == 856, "polgamir_job");
AT(polgamir_windows, given, 0);
AT(polgamir_windows, dwell, 4);
AT(polgamir_windows, count, 8);
AT(polgamir_windows, list, 16);
_Static_assert(sizeof(polgamir_windows) == 272, "polgamir_windows");
AT(polgamir_window, opening, 0);
AT(polgamir_window, closing, 4);
_Static_assert(sizeof(polgamir_window) == 8, "polgamir_window");
AT(polgamir_stop, positions, 0);
AT(polgamir_stop, dwell, 48);
_Static_assert(sizeof(polgamir_stop) == 56, "polgamir_stop");
AT(polgamir_limits, speed_limit, 0);
AT(polgamir_limits, acceleration_limit, 4);
AT(polgamir_limits, half_period, 8);
AT(polgamir_limits, damping_kind, 12);
AT(polgamir_limits, second_weight, 16);
AT(polgamir_limits, swing_ratio, 20);
AT(polgamir_limits, first_peak, 24);
AT(polgamir_limits, second_peak, 28);
AT(polgamir_limits, second_sway_given, 32);
AT(polgamir_limits, second_half_period, 36);
_Static_assert(sizeof(polgamir_limits) == 40, "polgamir_limits");
AT(polgamir_tour, mask, 0);
AT(polgamir_tour, start, 8);
AT(polgamir_tour, limits, 56);
_Static_assert(sizeof(polgamir_tour) == 296, "polgamir_tour");
AT(polgamir_tour_answer, number, 0);
AT(polgamir_tour_answer, mask, 4);
AT(polgamir_tour_answer, place, 8);
AT(polgamir_tour_answer, arrival, 16);
AT(polgamir_tour_answer, total, 20);
_Static_assert(sizeof(polgamir_tour_answer) == 24, "polgamir_tour_answer");
AT(polgamir_raise, limit, 0);
AT(polgamir_raise, by, 4);
_Static_assert(sizeof(polgamir_raise) == 8, "polgamir_raise");
AT(polgamir_axis_raises, first, 0);
AT(polgamir_axis_raises, second, 8);
_Static_assert(sizeof(polgamir_axis_raises) == 16, "polgamir_axis_raises");
AT(polgamir_raises, answer, 0);
AT(polgamir_raises, axes, 24);
_Static_assert(sizeof(polgamir_raises) == 120, "polgamir_raises");
AT(polgamir_search_answer, number, 0);
AT(polgamir_search_answer, mask, 4);
AT(polgamir_search_answer, place, 8);
AT(polgamir_search_answer, arrival, 16);
AT(polgamir_search_answer, report, 20);
AT(polgamir_search_answer, next, 24);
AT(polgamir_search_answer, tried, 28);
_Static_assert(sizeof(polgamir_search_answer) == 32, "polgamir_search_answer");
#undef AT

#endif
