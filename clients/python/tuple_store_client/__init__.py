"""A client of `tuple_store`, a document store: a module for programs, and the command `tuplectl`."""

from .errors import (
    REFUSALS,
    Damaged,
    FilesDiffer,
    Held,
    NewerFormat,
    NoStore,
    PartitionsDiffer,
    ProgramNotFound,
    Refused,
    StoreError,
    StoreFailed,
)
from .numbers import unwrap, wrap
from .store import Collected, Delete, Deleted, Document, Get, Got, Path, Row, Store, Upsert, Upserted

__all__ = [
    "REFUSALS",
    "Collected",
    "Damaged",
    "Delete",
    "Deleted",
    "Document",
    "FilesDiffer",
    "Get",
    "Got",
    "Held",
    "NewerFormat",
    "NoStore",
    "PartitionsDiffer",
    "Path",
    "ProgramNotFound",
    "Refused",
    "Row",
    "Store",
    "StoreError",
    "StoreFailed",
    "Upsert",
    "Upserted",
    "unwrap",
    "wrap",
]
