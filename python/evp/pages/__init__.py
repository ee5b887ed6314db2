"""The desk's pages. Each is one file that needs nothing from elsewhere: `page_NAME(..)` gives its HTML.

They are drawn from the library's answers alone. Where a page shows a part of a mass, such as that of a season, it is
the report of a sheet with that part alone (parts.py). Pages need Jinja2, the served ones Flask; needs.py says what to
install where they are missing.
"""
