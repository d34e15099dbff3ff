"""The panels of the dashboard."""

from __future__ import annotations

import json
from typing import Any, Dict, List, Tuple


def panels(text: str) -> List[Dict[str, Any]]:
    """The panels, also those inside collapsed rows."""
    found = []
    for panel in json.loads(text)["panels"]:
        found += [panel, *panel.get("panels", [])]
    return found


def expressions(text: str) -> List[Tuple[str, str]]:
    """Each expression with the title of its panel."""
    return [(panel["title"], target["expr"]) for panel in panels(text) for target in panel.get("targets", [])]
