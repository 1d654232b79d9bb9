"""What QGIS has of a layer of the features, as JSON:

    qgis_layer.py URL USER SECRET TABLE WEST SOUTH EAST NORTH BEGIN END

It needs Debian's Python and python3-qgis.
"""

from __future__ import annotations

import json
import sys
from typing import Any

from qgis.core import QgsApplication, QgsFeatureRequest, QgsRectangle, QgsVectorLayer


def read(url: str, user: str, secret: str, table: str, box: list[float], begin: str, end: str) -> dict[str, Any]:
    """The extent, the rows of all, of a view, and of a time. The layer is gone when this returns, as QGIS wants it at its end."""
    layer = QgsVectorLayer(f"url='{url}/' typename='{table}' username='{user}' password='{secret}'", table, "OAPIF")

    def names(request: QgsFeatureRequest) -> list[list[str]]:
        return sorted([feature["id"], feature["label"]] for feature in layer.getFeatures(request))

    extent = layer.extent()
    told = {
        "valid": layer.isValid(),
        "extent": [extent.xMinimum(), extent.yMinimum(), extent.xMaximum(), extent.yMaximum()],
        "all": names(QgsFeatureRequest()),
        "view": names(QgsFeatureRequest(QgsRectangle(*box))),
    }
    layer.setSubsetString(f"\"time\" >= '{begin}' AND \"time\" <= '{end}'")
    return told | {"span": names(QgsFeatureRequest())}


def main() -> None:
    url, user, secret, table, *box, begin, end = sys.argv[1:]
    application = QgsApplication([], False)
    application.initQgis()
    warnings: list[str] = []
    received = application.messageLog().messageReceived
    connection = received.connect(lambda message, tag, level: warnings.append(f"{tag}: {message}"))
    told = read(url, user, secret, table, list(map(float, box)), begin, end)
    received.disconnect(connection)
    print(json.dumps(told | {"warnings": warnings}), flush=True)
    application.exitQgis()


if __name__ == "__main__":
    main()
