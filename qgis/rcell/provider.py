# SPDX-License-Identifier: Apache-2.0 OR GPL-2.0-or-later
"""Define the provider of the algorithms and its setting."""

from __future__ import annotations

import os

from processing.core.ProcessingConfig import ProcessingConfig, Setting
from qgis.core import QgsProcessingProvider
from qgis.PyQt.QtGui import QIcon

from .algorithms import ALGORITHMS

ICON = os.path.join(os.path.dirname(os.path.abspath(__file__)), "icon.svg")


class RcellProvider(QgsProcessingProvider):
    """Provides all algorithms of the plugin."""

    def id(self) -> str:
        """Return the prefix of algorithm names."""
        return "rcell"

    def name(self) -> str:
        """Return the provider's name in the toolbox."""
        return "rcell"

    def longName(self) -> str:
        """Return the provider's name in lists of providers."""
        return "rcell (tables and maps of categories)"

    def icon(self) -> QIcon:
        """Return the icon next to the provider's name."""
        return QIcon(ICON)

    def load(self) -> bool:
        """Add the setting under Settings > Options > Processing > Providers."""
        ProcessingConfig.settingIcons["rcell"] = self.icon()
        title = "Program rcell-pipe (empty: the plugin's own)"
        ProcessingConfig.addSetting(
            Setting("rcell", "RCELL_PROGRAM", title, "", valuetype=Setting.FILE)
        )
        ProcessingConfig.readSettings()
        self.refreshAlgorithms()
        return True

    def unload(self) -> None:
        """Remove the provider's setting."""
        ProcessingConfig.removeSetting("RCELL_PROGRAM")

    def loadAlgorithms(self) -> None:
        """Add each algorithm of the plugin."""
        for algorithm in ALGORITHMS:
            self.addAlgorithm(algorithm())
