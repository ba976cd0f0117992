# SPDX-License-Identifier: Apache-2.0 OR GPL-2.0-or-later
"""Define the plugin, which adds algorithms to the toolbox, but no menus or windows."""

from __future__ import annotations

from qgis.core import QgsApplication

from .provider import RcellProvider
from .translation import translator


class RcellPlugin:
    """The plugin that QGIS loads."""

    def __init__(self) -> None:
        self._provider: RcellProvider | None = None
        # Keep a reference, because translation stops when the translator is deleted.
        self._translator = translator()
        if self._translator is not None:
            QgsApplication.installTranslator(self._translator)

    def initProcessing(self) -> None:
        """Add the provider.

        Programs without a window, such as qgis_process, call only this method.
        """
        self._provider = RcellProvider()
        QgsApplication.processingRegistry().addProvider(self._provider)

    def initGui(self) -> None:
        """Add the provider when QGIS runs with a window."""
        self.initProcessing()

    def unload(self) -> None:
        """Remove the algorithms from the toolbox."""
        if self._provider is not None:
            QgsApplication.processingRegistry().removeProvider(self._provider)
            self._provider = None
