"""Sources as text, for the page."""
from __future__ import annotations

from ..sources import Sources

__all__ = ["Sources"]
