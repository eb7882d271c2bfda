"""Converts xBRL-CSV reports to xBRL-JSON, with the proved C library of xbrl-json.

    import xbrl_json

    try:
        document = xbrl_json.convert_folder("q3", "meta.json", "types.csv")
    except xbrl_json.Refused as refused:
        for fault in refused.faults:
            print(fault.table, fault.row, fault.column, fault.name, fault.cell)

`convert` takes files in memory, `convert_folder` files on disk. Both return the whole document in
memory. For a document of many gigabytes run the program `xbrl-json`, which writes it to a file.

Threads may call at the same time: the interpreter's lock is released during a conversion. Do not
call in a child that was forked from a process with threads; `multiprocessing` has the start method
"spawn" for this.
"""
from .c_library import Buffer
from .conversion import Layout, convert, convert_folder, version
from .faults import ConversionError, Fault, Refused

__all__ = [
    "Buffer",
    "ConversionError",
    "Fault",
    "Layout",
    "Refused",
    "convert",
    "convert_folder",
    "version",
]
