"""A second reckoning of the evaporation workbook, and what stands on it: docs/TOOLS.md.

The commands are python3 -m tools.sheet, tools.reckoning, tools.vectors,
tools.make, tools.check, tools.progress, tools.landing and tools.tests; --help
stands behind each.
"""
