"""The desk of the evaporation workbook: sheets written, checked, explained, shown and marked over the proved library.

Standard library alone. Nothing here calculates a mass: every mass is a word of the library's report.
"""
