"""Pibranog's proved calls for Python: records as lines of JSON, the image that a log makes, who would lead a partition, where
replicas would be placed, which leaders a round of the balancer would move, and messages: requests from JSON, replies to JSON.

A `Door` starts the program `kr_door` and speaks to it (docs/FORMATS.md, "The door"):

    with Door() as door:
        for record in door.image_records(image):
            print(record["type"], record["data"])
"""
from pibranog.door import Closed, Door, Missing, Refused
from pibranog.values import Elected, Partition, partitions_of

__all__ = ["Closed", "Door", "Elected", "Missing", "Partition", "Refused", "partitions_of"]
