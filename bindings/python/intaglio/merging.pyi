from array import array
from collections.abc import Iterable
from typing import Any, SupportsIndex

from _typeshed import StrOrBytesPath

from intaglio.frozen import Frozen

def merge(
    tables: Iterable[Frozen[Any] | StrOrBytesPath],
    /,
    out: StrOrBytesPath | None = ...,
    *,
    keys: tuple[int, int] | None = ...,
    shards: SupportsIndex | None = ...,
    shard: SupportsIndex | None = ...,
) -> tuple[Frozen[Any], list[array[int]]]:
    ...
