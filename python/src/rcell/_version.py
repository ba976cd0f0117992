# SPDX-License-Identifier: Apache-2.0 OR GPL-2.0-or-later
"""The version of the package, which equals the program's version."""

__all__ = ["__version__"]

__version__ = "1.0.0"
