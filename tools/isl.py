"""isl's sets and maps, by its library, as far as the sources of reads are compared with it."""
from __future__ import annotations

import ctypes
from collections.abc import Callable

LIBRARY = "libisl.so.23"


class Absent(Exception):
    """The library isn't here."""


class Isl:
    """The library with one context. A set or a map is a number, which the library owns until it is taken."""

    def __init__(self) -> None:
        try:
            self.library = ctypes.CDLL(LIBRARY)
        except OSError as error:
            raise Absent(f"there is no {LIBRARY}, which is in Debian's libisl23: {error}") from None
        self.context = self.call("isl_ctx_alloc")
        self.version = self.text_of(self.function("isl_version", ctypes.c_char_p)()).strip()

    def function(self, name: str, result: type = ctypes.c_void_p) -> Callable[..., object]:
        found = getattr(self.library, name)
        found.restype = result
        return found

    def call(self, name: str, *words: object) -> int:
        """Calls a function that gives an object."""
        found = self.function(name)(*[ctypes.c_void_p(it) if isinstance(it, int) else it for it in words])
        if not found:
            raise ValueError(f"{name} fails")
        return int(str(found))

    @staticmethod
    def text_of(found: object) -> str:
        assert isinstance(found, bytes)
        return found.decode()

    def union_map(self, text: str) -> int:
        return self.call("isl_union_map_read_from_str", self.context, text.encode())

    def union_set(self, text: str) -> int:
        return self.call("isl_union_set_read_from_str", self.context, text.encode())

    def copy(self, found: int) -> int:
        return self.call("isl_union_map_copy", found)

    def shown(self, found: int, kind: str = "map") -> str:
        """A union map, or a union set, as a text."""
        return self.text_of(self.function(f"isl_union_{kind}_to_str", ctypes.c_char_p)(ctypes.c_void_p(found)))

    def are_equal(self, one: int, other: int, kind: str = "map") -> bool:
        answer = self.function(f"isl_union_{kind}_is_equal", ctypes.c_int)(ctypes.c_void_p(one), ctypes.c_void_p(other))
        if answer == -1:
            raise ValueError("they can't be compared")
        return answer == 1

    def count(self, text: str) -> int:
        """How many points a set has."""
        found = self.call("isl_set_count_val", self.call("isl_set_read_from_str", self.context, text.encode()))
        return int(self.text_of(self.function("isl_val_to_str", ctypes.c_char_p)(ctypes.c_void_p(found))))

    def last_writers(self, read: str, writes: str, order: str) -> tuple[int, int]:
        """isl's flow analysis of one read: the map from its points to the last writers, and the set of its points that have none."""
        access = self.call("isl_union_access_info_from_sink", self.union_map(read))
        access = self.call("isl_union_access_info_set_must_source", access, self.union_map(writes))
        access = self.call("isl_union_access_info_set_schedule_map", access, self.union_map(order))
        flow = self.call("isl_union_access_info_compute_flow", access)
        must = self.call("isl_union_flow_get_must_dependence", flow)
        none = self.call("isl_union_flow_get_must_no_source", flow)
        return self.call("isl_union_map_reverse", must), self.call("isl_union_map_domain", none)
