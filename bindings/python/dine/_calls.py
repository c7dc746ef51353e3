"""Written by tools/bindings from the exports of crates/dine_ffi: the calls of dine.h, for ctypes."""
from __future__ import annotations

from ctypes import CDLL, POINTER, Structure, c_bool, c_int64, c_size_t, c_uint8, c_uint32, c_uint64, c_void_p
from typing import Any


class Handle(Structure):
    _fields_ = [("at", c_void_p), ("state", c_uint32)]


class Number(c_uint32):
    """A number of a site, an edge, a place or an event. One of more than 32 bits becomes 2**32 - 1, which is none."""

    @classmethod
    def from_param(cls, number: int) -> Any:
        return c_uint32(number if 0 <= number < 2**32 else 2**32 - 1)


class Event(Structure):
    _fields_ = [(it, c_uint32) for it in ("site", "kind", "place")]


class Ends(Structure):
    _fields_ = [(it, c_uint32) for it in ("lower", "higher")]


class SiteState(Structure):
    _fields_ = [(it, c_uint32) for it in ("phase", "ate", "degree", "finished")]


class Place(Structure):
    _fields_ = [(it, c_uint32) for it in ("edge", "neighbour", "has_fork", "has_token", "is_dirty", "is_closed")]


CALLS = {
    "dine_plan_builder_open": [POINTER(Handle)],
    "dine_plan_builder_site": [POINTER(Handle), POINTER(c_uint8), c_size_t, Number],
    "dine_plan_builder_edge": [POINTER(Handle), Number, Number],
    "dine_plan_builder_value": [POINTER(Handle), Number, Number],
    "dine_plan_builder_resign": [POINTER(Handle), Number],
    "dine_plan_builder_turns": [POINTER(Handle), Number, Number, Number],
    "dine_plan_builder_fails": [POINTER(Handle), Number, Number],
    "dine_plan_builder_act": [POINTER(Handle), Number, Number, c_bool, Number],
    "dine_plan_builder_finish": [POINTER(Handle), POINTER(Handle)],
    "dine_plan_open": [POINTER(c_uint8), c_size_t, POINTER(Handle)],
    "dine_plan_refusal": [POINTER(c_uint8), c_size_t, POINTER(c_uint8), c_size_t],
    "dine_close": [POINTER(Handle)],
    "dine_plan_version": [POINTER(Handle)],
    "dine_plan_sites": [POINTER(Handle)],
    "dine_plan_edges": [POINTER(Handle)],
    "dine_plan_jobs": [POINTER(Handle), Number],
    "dine_plan_name": [POINTER(Handle), Number, POINTER(c_uint8), c_size_t],
    "dine_plan_ends": [POINTER(Handle), Number, POINTER(Ends)],
    "dine_site_open": [POINTER(Handle), Number, POINTER(Handle)],
    "dine_site_open_in": [POINTER(Handle), Number, c_uint64, POINTER(Handle)],
    "dine_site_state": [POINTER(Handle), POINTER(SiteState)],
    "dine_site_place": [POINTER(Handle), Number, POINTER(Place)],
    "dine_site_next": [POINTER(Handle), POINTER(Event)],
    "dine_site_hungry": [POINTER(Handle)],
    "dine_site_quit": [POINTER(Handle)],
    "dine_site_give": [POINTER(Handle), Number, POINTER(c_uint8), c_size_t],
    "dine_site_ask": [POINTER(Handle), Number, POINTER(c_uint8), c_size_t],
    "dine_site_done": [POINTER(Handle), Number, POINTER(c_uint8), c_size_t],
    "dine_site_shut": [POINTER(Handle), Number, POINTER(c_uint8), c_size_t],
    "dine_site_break": [POINTER(Handle), Number, POINTER(c_uint8), c_size_t],
    "dine_site_act": [POINTER(Handle), POINTER(Event), POINTER(c_uint8), c_size_t],
    "dine_site_turn": [POINTER(Handle), POINTER(Event), POINTER(c_uint8), c_size_t],
    "dine_site_take": [POINTER(Handle), POINTER(c_uint8), c_size_t],
    "dine_site_begin": [POINTER(Handle)],
    "dine_site_end": [POINTER(Handle), c_bool],
    "dine_site_fork": [POINTER(Handle), Number, POINTER(c_uint32), c_size_t],
    "dine_site_value": [POINTER(Handle), Number],
    "dine_world_open": [POINTER(Handle), POINTER(Handle)],
    "dine_world_bound": [POINTER(Handle)],
    "dine_world_count": [POINTER(Handle)],
    "dine_world_enabled": [POINTER(Handle), Number, POINTER(Event)],
    "dine_world_step": [POINTER(Handle), POINTER(Event)],
    "dine_world_replay": [POINTER(Handle), POINTER(c_uint32), c_size_t],
    "dine_world_finish": [POINTER(Handle)],
    "dine_world_phase": [POINTER(Handle), Number],
    "dine_world_ate": [POINTER(Handle), Number],
    "dine_world_fork": [POINTER(Handle), Number, POINTER(c_uint32), c_size_t],
    "dine_world_value": [POINTER(Handle), Number],
}


def declare(library: CDLL) -> None:
    """Declares the calls of the library."""
    for name, kinds in CALLS.items():
        call = getattr(library, name)
        call.argtypes, call.restype = kinds, c_int64
