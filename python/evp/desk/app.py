"""The application: the pages where they are there, and a ledger where one is open."""

import os
import traceback
from importlib.util import find_spec

from flask import Flask, Response
from werkzeug.exceptions import HTTPException

from evp.desk import security, views
from evp.desk.ending import log
from evp.desk.form_data import FormRequest
from evp.desk.ledger import CourseLedger
from evp.desk.server import HEALTH


class Application(Flask):
    request_class = FormRequest


def create_app(hosts: frozenset[str], ledger: CourseLedger | None = None) -> Flask:
    """The application for requests to `hosts`."""
    app = Application("evp.desk", static_folder=None)
    app.config["MAX_CONTENT_LENGTH"] = security.MOST_BODY
    app.url_map.merge_slashes = False  # an address is what it is: none leads to another
    app.logger.disabled = True  # its lines have addresses in them, and an address may be a key
    security.protect(app, hosts)
    app.register_error_handler(Exception, _failure)
    app.add_url_rule(HEALTH, "health", lambda: _health(ledger))
    if has_pages():
        from evp.pages.routes import blueprint, prepare
        app.register_blueprint(blueprint)
        prepare()
    if ledger is not None:
        app.register_blueprint(views.blueprint(ledger))
    return app


def has_pages() -> bool:
    return find_spec("evp.pages.routes") is not None


def _health(ledger: CourseLedger | None) -> Response:
    """For a supervisor: whether the server answers, and whether the last call could be kept."""
    trouble = "" if ledger is None else ledger.trouble
    return Response((trouble or "ok") + "\n", 503 if trouble else 200, mimetype="text/plain")


def _failure(error: Exception) -> Response:
    """An error in words. No address is printed: it may have a secret in it."""
    if isinstance(error, HTTPException):
        if error.code is None or error.code < 400:
            return error.get_response()
        return security.turned_away(error.code)
    log("evp: desk: a page failed: %s" % type(error).__name__)
    if os.environ.get("EVP_TRACEBACK"):
        log("".join(traceback.format_exception(error)))
    return security.turned_away(500)
