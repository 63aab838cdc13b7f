#!/usr/bin/env python3
"""measure.py with the parts that make the other figures of docs/speed.md."""
import measure

measure.main(measure.FURTHER)
