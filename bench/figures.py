#!/usr/bin/env python3
"""measure.py with the part figures."""
import measure

measure.main(["figures"])
