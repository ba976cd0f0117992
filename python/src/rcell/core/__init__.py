# SPDX-License-Identifier: Apache-2.0 OR GPL-2.0-or-later
"""The core of the Python package, the QGIS plugin and r.rcell. Requires no library but numpy."""
