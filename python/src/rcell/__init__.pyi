# SPDX-License-Identifier: Apache-2.0 OR GPL-2.0-or-later
# The names of the package and their modules, for type checkers and for __init__.py.

from ._version import __version__ as __version__
from .core.accuracy import Accuracy as Accuracy
from .core.aggregate import Aggregate as Aggregate
from .core.align import Aligned as Aligned
from .core.change import Change as Change
from .core.errors import (
    BadArgument as BadArgument,
    BadMap as BadMap,
    Killed as Killed,
    MissingLibrary as MissingLibrary,
    MissingProgram as MissingProgram,
    OtherCrs as OtherCrs,
    OtherRegion as OtherRegion,
    OutOfMemory as OutOfMemory,
    RcellError as RcellError,
    ReadFailed as ReadFailed,
    Refused as Refused,
    WriteFailed as WriteFailed,
    WrongProgram as WrongProgram,
)
from .core.region import Region as Region
from .core.sieve import Sieved as Sieved
from .core.sources import MapLike as MapLike
from .core.trajectories import Trajectories as Trajectories
from .frames import (
    Result as Result,
    accuracy as accuracy,
    adjacency as adjacency,
    aggregate as aggregate,
    align as align,
    change as change,
    clump as clump,
    composition as composition,
    cross as cross,
    dominant as dominant,
    grid as grid,
    majority as majority,
    metrics as metrics,
    patches as patches,
    reclass as reclass,
    run as run,
    sample as sample,
    sieve as sieve,
    table as table,
    trajectories as trajectories,
    within as within,
    zonal as zonal,
)
from .raster import Raster as Raster
from .readers.bands import bands as bands
from .records import (
    record as record,
    report as report,
    verify as verify,
)
from .shares import Shares as Shares
from .versions import show_versions as show_versions

__all__: list[str]
