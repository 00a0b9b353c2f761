"""Columns of FIT files, by the proved library of fitrec.

    import fitrec

    ride = fitrec.read("ride.fit")                      # Columns: ride["heart_rate"], ride.units["distance"]
    table = fitrec.read("ride.fit").to_pandas()         # a pandas table
    laps = fitrec.read("ride.fit", message="lap", fields=["start_time", "total_distance"])
    raw = fitrec.read("ride.fit", raw=True)             # int64 as in the file, NO_VALUE where there is none
    all_rides = fitrec.read_many(paths)                 # one pandas table, and the files that were refused
    for name, ride, fault in fitrec.iter_many(paths, fields=["timestamp", "heart_rate"]):
        ...                                             # one file after another, whatever there is of them
"""

from __future__ import annotations

from collections.abc import Iterable
from typing import Optional, Union

from ._batch import Fault, WorkerDied
from ._columns import Columns
from ._folder import Written, read_folder
from ._library import NO_VALUE, FitError
from ._many import Result, check_many, iter_many, read_many, refuse, write_many
from ._reading import columns_of
from ._schema import Field, OtherType, listed, schema
from ._sources import Source, bytes_of
from ._whole import Finished, Piece, Salvaged, Skipped, Summary, check, finish, join, salvage, shift, skip, split

__all__ = ["Columns", "Fault", "Finished", "FitError", "NO_VALUE", "OtherType", "Piece", "Result", "Salvaged", "Skipped", "Summary",
           "WorkerDied", "Written", "check", "check_many", "finish", "iter_many", "join", "read", "read_folder", "read_many", "salvage",
           "schema", "shift", "skip", "split", "write_many"]

def read(source: Source, message: Union[int, str] = "record", fields: Union[Field, Iterable[Field], None] = None,
         raw: bool = False, enums: bool = False, most_bytes: Optional[int] = None) -> Columns:
    """The columns of a file: for each message of this name or global number the value of each field.

    source is a path, or the bytes of a file. fields are names or numbers, such as "heart_rate", 3 or "field_39", or just one; a developer
    field has the name that the file gives it. Without them the columns are the usual ones, then the other fields that the messages have.
    With enums the values of an enum are their names, such as "cycling"; a value without a name is the text of its number. It raises
    FitError if the bytes are no FIT file, or if they or the columns, 8 bytes for a value, have more than most_bytes, OSError if the file
    cannot be read, and ValueError for a name that neither the Profile nor the file has."""
    data, path = bytes_of(source, most_bytes)
    try:
        columns, _, unknown = columns_of(data, message, listed(fields), raw, enums, most_bytes)
    except FitError as fault:
        raise FitError(fault.kind, fault.place, path) from None
    refuse(unknown)
    return columns
