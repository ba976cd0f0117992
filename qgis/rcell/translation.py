# SPDX-License-Identifier: Apache-2.0 OR GPL-2.0-or-later
"""Translate dialog texts into the language of QGIS.

The translations are in i18n/rcell_LANGUAGE.qm. Without a translation, texts are in English.
"""

from __future__ import annotations

import os

from qgis.core import QgsApplication
from qgis.PyQt.QtCore import QCoreApplication, QTranslator

CONTEXT = "rcell"
_FOLDER = os.path.join(os.path.dirname(os.path.abspath(__file__)), "i18n")


def tr(text: str) -> str:
    """Translate a text into the language of QGIS."""
    return str(QCoreApplication.translate(CONTEXT, text))


def noop(text: str) -> str:
    """Mark a text for later translation with `tr`; pylupdate finds it with -tr-function noop."""
    return text


def translator() -> QTranslator | None:
    """Load the translations for the language of QGIS, or return None if there are none."""
    path = os.path.join(_FOLDER, f"rcell_{QgsApplication.locale()[:2]}.qm")
    translation = QTranslator()
    return translation if os.path.isfile(path) and translation.load(path) else None
