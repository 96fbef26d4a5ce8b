"""Tables as DataFrames of pandas, which needn't be installed."""
from __future__ import annotations

from datetime import time

import pandas

from ._tables import OPTIONAL, Table, fields_of, name_in_table, public_time, working_time

# No character of a table quotes another one.
NO_QUOTES = 3


def frame_of(table: Table, kind: type[object]) -> pandas.DataFrame:
    """All rows of a table, with the fields of a class of `model`."""
    names = fields_of(kind, table.names)
    frame = pandas.read_csv(
        table.lines,
        sep="\t",
        names=table.names,
        dtype="string",
        quoting=NO_QUOTES,
        keep_default_na=False,
        na_values=[""],
        encoding="ascii",
    )
    columns = {
        name: typed(name, type_name.removesuffix(OPTIONAL), frame[name_in_table(name, table.names)])
        for name, type_name in names.items()
    }
    return pandas.DataFrame(columns)


def typed(name: str, type_name: str, column: pandas.Series) -> pandas.Series:
    """A column with the type of a field."""
    if type_name == "int":
        return column.astype("int64")
    if type_name in ("date", "Date"):
        return pandas.to_datetime(column, format="%Y-%m-%d")
    if type_name in ("timedelta", "Time"):
        return pandas.to_timedelta(column)
    if type_name == "time":
        read = public_time if name.startswith("public_") else working_time
        # the number of each cell among the unlike ones, or -1, the last, where there is none
        numbers, cells = pandas.factorize(column)
        moments = pandas.TimedeltaIndex(
            [*(since_midnight(read(cell)) for cell in cells), pandas.NaT]
        )
        return pandas.Series(moments.take(numbers))
    return column


def since_midnight(moment: time | None) -> pandas.Timedelta:
    if moment is None:
        return pandas.NaT
    return pandas.Timedelta(hours=moment.hour, minutes=moment.minute, seconds=moment.second)
