#!/usr/bin/env python3
"""measure.py with the part many."""
import measure

measure.main(["many"])
