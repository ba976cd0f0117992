# SPDX-License-Identifier: Apache-2.0 OR GPL-2.0-or-later
"""List the algorithms of the toolbox."""

from __future__ import annotations

from .accuracy import AccuracyAlgorithm, SampleAlgorithm
from .align import AlignAlgorithm
from .majority import AggregateAlgorithm, MajorityAlgorithm, WithinAlgorithm
from .patches import ClumpAlgorithm, MetricsAlgorithm, PatchesAlgorithm, SieveAlgorithm
from .reclass import ReclassAlgorithm
from .records import ReportAlgorithm, VerifyAlgorithm
from .script import ScriptAlgorithm
from .tables import (
    AdjacencyAlgorithm,
    ChangeAlgorithm,
    CompositionAlgorithm,
    CrossAlgorithm,
    DominantAlgorithm,
    TrajectoriesAlgorithm,
    ZonalAlgorithm,
)

ALGORITHMS = (
    CompositionAlgorithm,
    CrossAlgorithm,
    ChangeAlgorithm,
    TrajectoriesAlgorithm,
    AdjacencyAlgorithm,
    ClumpAlgorithm,
    PatchesAlgorithm,
    ZonalAlgorithm,
    DominantAlgorithm,
    AccuracyAlgorithm,
    SampleAlgorithm,
    MetricsAlgorithm,
    MajorityAlgorithm,
    SieveAlgorithm,
    WithinAlgorithm,
    AggregateAlgorithm,
    AlignAlgorithm,
    ReclassAlgorithm,
    ScriptAlgorithm,
    VerifyAlgorithm,
    ReportAlgorithm,
)
