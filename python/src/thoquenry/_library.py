"""Finds and loads libthoquenry, and declares its functions."""

import os
from ctypes import CDLL, POINTER, c_bool, c_char_p, c_int64, c_size_t, c_uint8, c_uint16, c_uint32, c_uint64
from pathlib import Path

# The functions of include/thoquenry.h: for each its result and its parameters. Bytes that are only read are c_char_p, which takes a bytes object
# as it is.
DECLARATIONS = {
    "thq_version": (c_uint64, []),
    "thq_read_loop": (c_uint64, [
        ("reading", c_uint64),
        ("bytes", c_char_p), ("bytes_length", c_size_t),
        ("entries", POINTER(c_uint16)), ("entries_length", c_size_t),
    ]),
    "thq_write_loop": (c_uint64, [
        ("entries", POINTER(c_uint16)), ("entries_length", c_size_t),
        ("out", POINTER(c_uint8)), ("out_length", c_size_t),
    ]),
    "thq_closure": (c_uint64, [
        ("reading", c_uint64),
        ("bytes", c_char_p), ("bytes_length", c_size_t),
        ("target", c_uint64),
        ("set", POINTER(c_uint64)), ("set_length", c_size_t),
    ]),
    "thq_read_times": (c_uint64, [
        ("bytes", c_char_p), ("bytes_length", c_size_t),
        ("times", POINTER(c_uint64)), ("times_length", c_size_t),
    ]),
    "thq_write_times": (c_uint64, [
        ("pts", c_uint64), ("decoding", c_uint64), ("match", c_uint64), ("with_tref", c_uint64),
        ("out", POINTER(c_uint8)), ("out_length", c_size_t),
    ]),
    "thq_join": (c_uint64, [
        ("present", c_uint64),
        ("embedded", POINTER(c_uint64)), ("embedded_length", c_size_t),
        ("target", c_uint64),
        ("indices", POINTER(c_uint8)), ("indices_length", c_size_t),
        ("decodings", POINTER(c_uint64)), ("decodings_length", c_size_t),
        ("matches", POINTER(c_uint64)), ("matches_length", c_size_t),
        ("numbers", POINTER(c_uint64)), ("numbers_length", c_size_t),
        ("lags", POINTER(c_int64)), ("lags_length", c_size_t),
        ("sizes", POINTER(c_uint64)), ("sizes_length", c_size_t),
        ("summary", POINTER(c_uint64)), ("summary_length", c_size_t),
    ]),
    "thq_join_long": (c_uint64, [
        ("present", c_uint64),
        ("embedded", POINTER(c_uint64)), ("embedded_length", c_size_t),
        ("target", c_uint64),
        ("indices", POINTER(c_uint8)), ("indices_length", c_size_t),
        ("decodings", POINTER(c_uint64)), ("decodings_length", c_size_t),
        ("matches", POINTER(c_uint64)), ("matches_length", c_size_t),
        ("order", POINTER(c_size_t)), ("order_length", c_size_t),
        ("keys", POINTER(c_uint64)), ("keys_length", c_size_t),
        ("kept", POINTER(c_size_t)), ("kept_length", c_size_t),
        ("places", POINTER(c_size_t)), ("places_length", c_size_t),
        ("heads", POINTER(c_size_t)), ("heads_length", c_size_t),
        ("claimed", POINTER(c_bool)), ("claimed_length", c_size_t),
        ("used", POINTER(c_bool)), ("used_length", c_size_t),
        ("numbers", POINTER(c_uint64)), ("numbers_length", c_size_t),
        ("lags", POINTER(c_int64)), ("lags_length", c_size_t),
        ("sizes", POINTER(c_uint64)), ("sizes_length", c_size_t),
        ("summary", POINTER(c_uint64)), ("summary_length", c_size_t),
    ]),
    "thq_import": (c_uint64, [
        ("reading", c_uint64),
        ("bytes", c_char_p), ("bytes_length", c_size_t),
        ("target", c_uint64),
        ("indices", POINTER(c_uint8)), ("indices_length", c_size_t),
        ("decodings", POINTER(c_uint64)), ("decodings_length", c_size_t),
        ("matches", POINTER(c_uint64)), ("matches_length", c_size_t),
        ("numbers", POINTER(c_uint64)), ("numbers_length", c_size_t),
        ("lags", POINTER(c_int64)), ("lags_length", c_size_t),
        ("sizes", POINTER(c_uint64)), ("sizes_length", c_size_t),
        ("summary", POINTER(c_uint64)), ("summary_length", c_size_t),
    ]),
    "thq_packets_rows": (c_uint64, [
        ("bytes", c_char_p), ("bytes_length", c_size_t),
        ("packets", c_char_p), ("packets_length", c_size_t),
        ("starts", POINTER(c_uint64)), ("starts_length", c_size_t),
        ("indices", POINTER(c_uint8)), ("indices_length", c_size_t),
        ("decodings", POINTER(c_uint64)), ("decodings_length", c_size_t),
        ("matches", POINTER(c_uint64)), ("matches_length", c_size_t),
        ("trefs", POINTER(c_uint8)), ("trefs_length", c_size_t),
        ("numbers", POINTER(c_uint64)), ("numbers_length", c_size_t),
    ]),
    "thq_packets_import": (c_uint64, [
        ("bytes", c_char_p), ("bytes_length", c_size_t),
        ("target", c_uint64),
        ("packets", c_char_p), ("packets_length", c_size_t),
        ("numbers", POINTER(c_uint64)), ("numbers_length", c_size_t),
        ("lags", POINTER(c_int64)), ("lags_length", c_size_t),
        ("sizes", POINTER(c_uint64)), ("sizes_length", c_size_t),
        ("summary", POINTER(c_uint64)), ("summary_length", c_size_t),
    ]),
    "thq_packets_import_long": (c_uint64, [
        ("bytes", c_char_p), ("bytes_length", c_size_t),
        ("target", c_uint64),
        ("packets", c_char_p), ("packets_length", c_size_t),
        ("indices", POINTER(c_uint8)), ("indices_length", c_size_t),
        ("decodings", POINTER(c_uint64)), ("decodings_length", c_size_t),
        ("matches", POINTER(c_uint64)), ("matches_length", c_size_t),
        ("trefs", POINTER(c_uint8)), ("trefs_length", c_size_t),
        ("packet_numbers", POINTER(c_uint64)), ("packet_numbers_length", c_size_t),
        ("order", POINTER(c_size_t)), ("order_length", c_size_t),
        ("keys", POINTER(c_uint64)), ("keys_length", c_size_t),
        ("kept", POINTER(c_size_t)), ("kept_length", c_size_t),
        ("places", POINTER(c_size_t)), ("places_length", c_size_t),
        ("heads", POINTER(c_size_t)), ("heads_length", c_size_t),
        ("claimed", POINTER(c_bool)), ("claimed_length", c_size_t),
        ("used", POINTER(c_bool)), ("used_length", c_size_t),
        ("numbers", POINTER(c_uint64)), ("numbers_length", c_size_t),
        ("lags", POINTER(c_int64)), ("lags_length", c_size_t),
        ("sizes", POINTER(c_uint64)), ("sizes_length", c_size_t),
        ("summary", POINTER(c_uint64)), ("summary_length", c_size_t),
    ]),
    "thq_packets_start": (c_uint64, [
        ("bytes", c_char_p), ("bytes_length", c_size_t),
        ("state", POINTER(c_uint8)), ("state_length", c_size_t),
        ("counts", POINTER(c_uint64)), ("counts_length", c_size_t),
    ]),
    "thq_packets_feed": (c_uint64, [
        ("piece", c_char_p), ("piece_length", c_size_t),
        ("state", POINTER(c_uint8)), ("state_length", c_size_t),
        ("counts", POINTER(c_uint64)), ("counts_length", c_size_t),
        ("indices", POINTER(c_uint8)), ("indices_length", c_size_t),
        ("decodings", POINTER(c_uint64)), ("decodings_length", c_size_t),
        ("matches", POINTER(c_uint64)), ("matches_length", c_size_t),
        ("trefs", POINTER(c_uint8)), ("trefs_length", c_size_t),
        ("numbers", POINTER(c_uint64)), ("numbers_length", c_size_t),
    ]),
    "thq_packets_told": (c_uint64, [
        ("state", POINTER(c_uint8)), ("state_length", c_size_t),
        ("counts", POINTER(c_uint64)), ("counts_length", c_size_t),
    ]),
    "thq_packets_units": (c_uint64, [
        ("bytes", c_char_p), ("bytes_length", c_size_t),
        ("target", c_uint64),
        ("state", POINTER(c_uint8)), ("state_length", c_size_t),
        ("counts", POINTER(c_uint64)), ("counts_length", c_size_t),
        ("indices", POINTER(c_uint8)), ("indices_length", c_size_t),
        ("decodings", POINTER(c_uint64)), ("decodings_length", c_size_t),
        ("matches", POINTER(c_uint64)), ("matches_length", c_size_t),
        ("order", POINTER(c_size_t)), ("order_length", c_size_t),
        ("keys", POINTER(c_uint64)), ("keys_length", c_size_t),
        ("kept", POINTER(c_size_t)), ("kept_length", c_size_t),
        ("places", POINTER(c_size_t)), ("places_length", c_size_t),
        ("heads", POINTER(c_size_t)), ("heads_length", c_size_t),
        ("claimed", POINTER(c_bool)), ("claimed_length", c_size_t),
        ("used", POINTER(c_bool)), ("used_length", c_size_t),
        ("numbers", POINTER(c_uint64)), ("numbers_length", c_size_t),
        ("lags", POINTER(c_int64)), ("lags_length", c_size_t),
        ("sizes", POINTER(c_uint64)), ("sizes_length", c_size_t),
        ("summary", POINTER(c_uint64)), ("summary_length", c_size_t),
    ]),
    "thq_read_stereo": (c_uint64, [
        ("bytes", c_char_p), ("bytes_length", c_size_t),
        ("entries", POINTER(c_uint16)), ("entries_length", c_size_t),
        ("extensions", POINTER(c_uint16)), ("extensions_length", c_size_t),
    ]),
    "thq_write_stereo": (c_uint64, [
        ("entries", POINTER(c_uint16)), ("entries_length", c_size_t),
        ("extensions", POINTER(c_uint16)), ("extensions_length", c_size_t),
        ("out", POINTER(c_uint8)), ("out_length", c_size_t),
    ]),
    "thq_read_points": (c_uint64, [
        ("program", c_char_p), ("program_length", c_size_t),
        ("bytes", c_char_p), ("bytes_length", c_size_t),
        ("descriptors", POINTER(c_uint32)), ("descriptors_length", c_size_t),
        ("profiles", POINTER(c_uint8)), ("profiles_length", c_size_t),
        ("points", POINTER(c_uint32)), ("points_length", c_size_t),
        ("references", POINTER(c_uint8)), ("references_length", c_size_t),
        ("layers", POINTER(c_uint8)), ("layers_length", c_size_t),
        ("streams", POINTER(c_uint8)), ("streams_length", c_size_t),
        ("summary", POINTER(c_uint32)), ("summary_length", c_size_t),
    ]),
    "thq_write_points": (c_uint64, [
        ("profiles", c_char_p), ("profiles_length", c_size_t),
        ("points", POINTER(c_uint32)), ("points_length", c_size_t),
        ("references", c_char_p), ("references_length", c_size_t),
        ("layers", c_char_p), ("layers_length", c_size_t),
        ("out", POINTER(c_uint8)), ("out_length", c_size_t),
    ]),
    "thq_set_read": (c_uint64, [
        ("reading", c_uint64),
        ("bytes", c_char_p), ("bytes_length", c_size_t),
        ("layers", POINTER(c_uint16)), ("layers_length", c_size_t),
        ("stored", POINTER(c_uint64)), ("stored_length", c_size_t),
    ]),
    "thq_set_add": (c_uint64, [
        ("layers", POINTER(c_uint16)), ("layers_length", c_size_t),
        ("stored", POINTER(c_uint64)), ("stored_length", c_size_t),
        ("entry", POINTER(c_uint16)), ("entry_length", c_size_t),
    ]),
    "thq_set_remove": (c_uint64, [
        ("layers", POINTER(c_uint16)), ("layers_length", c_size_t),
        ("stored", POINTER(c_uint64)), ("stored_length", c_size_t),
        ("index", c_uint64),
    ]),
    "thq_set_closure": (c_uint64, [
        ("layers", POINTER(c_uint16)), ("layers_length", c_size_t),
        ("stored", POINTER(c_uint64)), ("stored_length", c_size_t),
        ("target", c_uint64),
        ("closure", POINTER(c_uint64)), ("closure_length", c_size_t),
    ]),
}

# The name under which programs ask for the shared object, and the versions that have it: 10,000 times the first part of the version and 100
# times the second.
_SONAME = "libthoquenry.so.0.5"
_FITTING = range(500, 600)

_REMEDY = f"""Build it with scripts/build-library in a clone of its repository, install it there with scripts/install (or its Debian package), so
that the system finds {_SONAME}, or name the file by the environment's THOQUENRY_SO."""


def _candidates():
    """Where the shared object may be: what THOQUENRY_SO names; or else what scripts/build-library has made in the clone that this file stands
    in, if it does; or else what the system's loader finds."""
    named = os.environ.get("THOQUENRY_SO")
    if named is not None:
        return [named]
    clones = [folder for folder in list(Path(__file__).resolve().parents)[3:4] if (folder / "crates.txt").is_file()]
    return [*(str(clone / "target" / "lib" / "libthoquenry.so") for clone in clones), _SONAME]


def load():
    """The library, with its functions declared."""
    failures = []
    for candidate in _candidates():
        try:
            library = CDLL(candidate)
            break
        except OSError as failure:
            failures.append(str(failure))
    else:
        raise ImportError("libthoquenry could not be loaded (" + "; ".join(failures) + "). " + _REMEDY)
    for name, (result, parameters) in DECLARATIONS.items():
        try:
            function = getattr(library, name)
        except AttributeError:
            raise ImportError(f"{candidate} has no {name}, so it is no libthoquenry of this version. {_REMEDY}") from None
        function.restype = result
        function.argtypes = [kind for _, kind in parameters]
    if library.thq_version() not in _FITTING:
        raise ImportError(f"{candidate} is libthoquenry of another version ({library.thq_version()}). {_REMEDY}")
    return library
