"""The structs and calls of include/polgamir.h for ctypes, field by field.
Nothing here is part of the API."""

from __future__ import annotations

import ctypes

from .constants import AXES, MOST_WINDOWS


class Answer(ctypes.Structure):
    _fields_ = [
        ("number", ctypes.c_uint32),
        ("mask", ctypes.c_uint32),
        ("place", ctypes.c_uint64),
        ("arrival", ctypes.c_uint32),
    ]


class Axis(ctypes.Structure):
    _fields_ = [
        ("start_position", ctypes.c_int64),
        ("start_velocity", ctypes.c_int64),
        ("target_position", ctypes.c_int64),
        ("target_velocity", ctypes.c_int64),
        ("target_acceleration", ctypes.c_int64),
        ("target_tick", ctypes.c_int64),
        ("target_kind", ctypes.c_uint32),
        ("speed_limit", ctypes.c_uint32),
        ("acceleration_limit", ctypes.c_uint32),
        ("half_period", ctypes.c_uint32),
        ("damping_kind", ctypes.c_uint32),
        ("second_weight", ctypes.c_uint32),
        ("swing_ratio", ctypes.c_float),
        ("first_peak", ctypes.c_float),
        ("second_peak", ctypes.c_float),
        ("second_sway_given", ctypes.c_uint32),
        ("second_half_period", ctypes.c_uint32),
    ]


class Window(ctypes.Structure):
    _fields_ = [("opening", ctypes.c_uint32), ("closing", ctypes.c_uint32)]


class Windows(ctypes.Structure):
    _fields_ = [
        ("given", ctypes.c_uint32),
        ("dwell", ctypes.c_uint32),
        ("count", ctypes.c_uint64),
        ("list", Window * MOST_WINDOWS),
    ]


class Job(ctypes.Structure):
    _fields_ = [
        ("mask", ctypes.c_uint32),
        ("asked", ctypes.c_uint32),
        ("axes", Axis * AXES),
        ("windows", Windows),
    ]


class PartAnswer(ctypes.Structure):
    _fields_ = [
        ("number", ctypes.c_uint32),
        ("mask", ctypes.c_uint32),
        ("place", ctypes.c_uint64),
        ("arrival", ctypes.c_uint32),
        ("rows", ctypes.c_uint32),
    ]


class Raise(ctypes.Structure):
    _fields_ = [("limit", ctypes.c_uint32), ("by", ctypes.c_uint32)]


class AxisRaises(ctypes.Structure):
    _fields_ = [("first", Raise), ("second", Raise)]


class Raises(ctypes.Structure):
    _fields_ = [("answer", Answer), ("axes", AxisRaises * AXES)]


class Stop(ctypes.Structure):
    _fields_ = [("positions", ctypes.c_int64 * AXES), ("dwell", ctypes.c_uint32)]


class Limits(ctypes.Structure):
    _fields_ = [
        ("speed_limit", ctypes.c_uint32),
        ("acceleration_limit", ctypes.c_uint32),
        ("half_period", ctypes.c_uint32),
        ("damping_kind", ctypes.c_uint32),
        ("second_weight", ctypes.c_uint32),
        ("swing_ratio", ctypes.c_float),
        ("first_peak", ctypes.c_float),
        ("second_peak", ctypes.c_float),
        ("second_sway_given", ctypes.c_uint32),
        ("second_half_period", ctypes.c_uint32),
    ]


class Tour(ctypes.Structure):
    _fields_ = [("mask", ctypes.c_uint32), ("start", ctypes.c_int64 * AXES), ("limits", Limits * AXES)]


class TourAnswer(ctypes.Structure):
    _fields_ = [
        ("number", ctypes.c_uint32),
        ("mask", ctypes.c_uint32),
        ("place", ctypes.c_uint64),
        ("arrival", ctypes.c_uint32),
        ("total", ctypes.c_uint32),
    ]


class SearchAnswer(ctypes.Structure):
    _fields_ = [
        ("number", ctypes.c_uint32),
        ("mask", ctypes.c_uint32),
        ("place", ctypes.c_uint64),
        ("arrival", ctypes.c_uint32),
        ("report", ctypes.c_uint32),
        ("next", ctypes.c_uint32),
        ("tried", ctypes.c_uint32),
    ]


STRUCTS = {
    "polgamir_answer": Answer,
    "polgamir_axis": Axis,
    "polgamir_window": Window,
    "polgamir_windows": Windows,
    "polgamir_job": Job,
    "polgamir_part_answer": PartAnswer,
    "polgamir_raise": Raise,
    "polgamir_axis_raises": AxisRaises,
    "polgamir_raises": Raises,
    "polgamir_stop": Stop,
    "polgamir_limits": Limits,
    "polgamir_tour": Tour,
    "polgamir_tour_answer": TourAnswer,
    "polgamir_search_answer": SearchAnswer,
}
"""Every struct of the header. A test holds their fields to it."""

FOUND, SPENT = 1, 2  # of `polgamir_report`
CELLS = ctypes.POINTER(ctypes.c_int64)
LIST = ctypes.POINTER(ctypes.c_uint32)

CALLS = {
    "polgamir_version": (ctypes.c_uint32, []),
    "polgamir_plan_words": (Answer, [LIST, ctypes.c_size_t, CELLS, ctypes.c_size_t]),
    "polgamir_plan_job": (Answer, [Job, CELLS, ctypes.c_size_t]),
    "polgamir_raises_job": (Raises, [Job]),
    "polgamir_raises_words": (Raises, [LIST, ctypes.c_size_t]),
    "polgamir_convert": (Answer, [LIST, ctypes.c_size_t, LIST, ctypes.c_size_t]),
    "polgamir_plan_words_backwards": (Answer, [LIST, ctypes.c_size_t, CELLS, ctypes.c_size_t]),
    "polgamir_plan_job_backwards": (Answer, [Job, CELLS, ctypes.c_size_t]),
    "polgamir_plan_words_part": (PartAnswer, [LIST, ctypes.c_size_t, ctypes.c_uint32, CELLS, ctypes.c_size_t]),
    "polgamir_plan_job_part": (PartAnswer, [Job, ctypes.c_uint32, CELLS, ctypes.c_size_t]),
    "polgamir_plan_tour": (TourAnswer, [Tour, ctypes.POINTER(Stop), ctypes.c_size_t, LIST, ctypes.c_size_t]),
    "polgamir_search_job": (SearchAnswer, [Job, ctypes.c_uint32, ctypes.c_uint32]),
    "polgamir_search_words": (SearchAnswer, [LIST, ctypes.c_size_t, ctypes.c_uint32, ctypes.c_uint32]),
}
"""Every call of the header: what it returns and takes. A test holds the names to it: a call that
the header gains gets its structs above, its line here, and its function with the others of its
subject."""
