"""The desk in a browser: the pages, and a ledger that eight participants and a marker share for an afternoon.

    store.py     the file of a ledger: what it was opened with, and every call
    ledger.py    the ledger itself; the library's calls alone decide
    words.py     its answers in words
    views.py     its pages
    render.py    their templates, upon the base and the style of all pages
    security.py  what is turned away before a page is asked
    form_data.py the form of a request, read within limits
    app.py       the Flask application of all of these
    channel.py   a connection: one request at a time, and time limits
    server.py    waitress, with limits
    versions.py  the versions of waitress, Werkzeug and Flask that were tested
    ending.py    signals, and the last line of the log
    supervisor.py  what is reported to systemd
    command.py   `evp serve`

evp-course.service is a systemd unit that starts it (docs/SERVER.md). app.py, channel.py, form_data.py, render.py,
security.py, server.py and views.py need Flask, Jinja2 and waitress; the others need the standard
library alone.
"""
