"""The limits of plans and requests, which docs/formats.md gives."""

CONTACTS = 20000  # that a plan can give, and ranges that can stand in it at a time
LINES = 1000000  # of a plan, of requests or of lists
LINE = 255  # bytes of a plan's line
GREATEST = 2**64 - 1  # node, and rate in bytes in a second
LIGHT = 1000000  # seconds of light time
ROUTES = 10000  # that the program gives at a time
MARGIN = 1000000  # parts in a million of a light time
HOPS = 20000  # contacts of a route
AVOIDED = 16  # nodes that a request avoids
