"""The addresses of the page: who may ask, which snapshot a screen shows, the two steps of a row."""

import contextlib
import os
import pathlib
import sqlite3
import time

import desk_client
import reporting
from desk_settings import whole_setting
from flask import Flask, Response, abort, g, render_template, request, url_for
from markupsafe import Markup
from werkzeug.exceptions import HTTPException

from . import derive, rows, screens, tables, words
from .live import NoSnapshot

HEADERS = {
    "Content-Security-Policy": (
        "default-src 'none'; script-src 'self'; style-src 'self'; img-src 'self'; "
        "connect-src 'self'; base-uri 'none'; form-action 'self'; frame-ancestors 'none'"),
    "X-Content-Type-Options": "nosniff", "X-Frame-Options": "DENY",
    "Referrer-Policy": "no-referrer",
    "Cross-Origin-Resource-Policy": "same-origin", "Cross-Origin-Opener-Policy": "same-origin",
    "Cache-Control": "no-store",
}
KEY, PLAIN = "X-Page-Key", {"Content-Type": "text/plain; charset=utf-8"}
NOTHING_BOOKED = "This page shows a copy: nothing can be booked on it."


def create(given, snapshots, clerks, who):
    """The program of the page over a desk's snapshots; without clerks it books nothing."""
    app = Flask("page", root_path=os.path.dirname(__file__))
    app.jinja_env.trim_blocks = app.jinja_env.lstrip_blocks = True
    app.jinja_env.filters.update(
        grouped=words.grouped, shown=shown, day=words.day_text, sentence=rows.sentence,
        words=desk_client.words_of, amount=words.amount_text,
        money=lambda cents: words.grouped(words.amount_text(cents)))
    app.jinja_env.globals.update(
        TYPES=words.TYPES, STATUSES=words.STATUSES, TAX=words.TAX, ENDS=words.ENDS,
        REPORTS=tables.REPORTS, KINDS=rows.KINDS, ACTIONS=rows.ACTIONS, given=given,
        file=pathlib.Path(given.file).name, head_of=words.head, url_with=url_with)
    add_guard(app, given, clerks, who)
    add_screens(app, given, snapshots)
    add_rows(app, given, snapshots)
    add_errors(app)
    return app


def shown(value):
    """A number or an amount with commas, marked if it is below zero; any other value as it is."""
    if not isinstance(value, int) and not words.AMOUNT.fullmatch(str(value)):
        return value
    is_below = str(value).startswith("-")
    return Markup('<span class="amount{}">{}</span>').format(
        " minus" if is_below else "", words.grouped(value))


def url_with(**changes):
    """The address of this screen with other arguments; None takes one away."""
    chosen = {**request.args, **changes}
    for key in [key for key, value in chosen.items() if value in (None, "")]:
        del chosen[key]
    return url_for(request.endpoint, **request.view_args, **chosen)


def add_guard(app, given, clerks, who):
    @app.before_request
    def guard():
        """Each request has a key, which no other site can read. The first one for an address has
        none, and gets a frame without data, whose script asks again with the key."""
        g.clerk, key, is_get = None, request.headers.get(KEY), request.method == "GET"
        site, origin = request.headers.get("Sec-Fetch-Site", "none"), request.headers.get("Origin")
        if request.host != given.host:
            return (f"This page is http://{given.host}/\n", 403, PLAIN)
        is_ours = site in ("none", "same-origin") and origin in (None, f"http://{given.host}")
        if not is_ours and (key or not is_get):
            return ("Another site sent this request.\n", 403, PLAIN)
        if request.endpoint in ("enter", "static"):
            return None
        if key is None and is_get:
            return render_template("frame.html")
        g.initials = who.clerk(key or "")
        if not g.initials:
            return ("no key\n", 401, PLAIN)
        g.clerk = clerks.named(g.initials) if clerks else None
        return None

    @app.after_request
    def sealed(response):
        response.headers.update(HEADERS)
        if request.endpoint == "static":
            response.headers["Cache-Control"] = "no-cache"
        return response

    @app.route("/enter", methods=["GET", "POST"])
    def enter():
        """A link is opened here; its secret is behind #, which no browser sends."""
        if request.method == "GET":
            return render_template("frame.html")
        key = who.enter(request.form.get("secret", ""))
        why = "This link was used before, or its day has ended: ask for a new one."
        return {"key": key} if key else ({"error": why}, 403)


def add_screens(app, given, snapshots):
    def added(rule, read):
        def screen(**names):
            """A screen over one snapshot, or the CSV of one of its tables."""
            with opened(given, snapshots) as desk:
                told = read(desk, **names)
                if "csv" in request.args:
                    found = desk.tables.get(request.args["csv"])
                    made = found or abort(404, "There is no such table on this screen.")
                    return Response(made.csv(), mimetype="text/csv")
                if endpoint == "today":
                    folder = given.copies or os.environ.get("BRK_COPIES")
                    stem = pathlib.Path(given.file).stem
                    told["copy"] = screens.newest_copy(folder, stem) if folder else None
                return page(told.pop("template", f"{endpoint}.html"), desk, **told)

        endpoint = rule.split("/")[1] or "today"
        endpoint = read.__name__ if read.__name__ == "holding" else endpoint
        app.add_url_rule(rule, endpoint, screen)

    for rule, read in screens.SCREENS.items():
        added(rule, read)

    @app.route("/explained/<any(trade, account, holding, broker):form>/<path:names>")
    def explained(form, names):
        """The program's own text over the snapshot of a screen, and where the screen differs."""
        parts = [int(part) if part.isdecimal() else part for part in names.split("/")]
        with opened(given, snapshots, request.args.get("snapshot")) as desk:
            facts = derive.facts(desk.conn, form, *parts)
            text, why = derive.explained(desk.snapshot.for_program(), form, *parts)
            differing = list(derive.differences(facts, text)) if text else []
            return render_template("explained.html", text=text, why=why, differing=differing,
                                   count=len(facts), stamp=reporting.time_text(desk.snapshot.stamp))


@contextlib.contextmanager
def opened(given, snapshots, name=None):
    """The desk over a snapshot that has this clerk's last row."""
    with snapshots.used(g.clerk.stamp if g.clerk else 0, name) as snapshot:
        is_fixed = given.copy or given.desk_clock
        now = snapshot.stamp if is_fixed else int(time.time() * 1000)
        with contextlib.closing(snapshot.connect()) as conn:
            day = max(now, snapshot.stamp) // words.DAY_MS
            yield screens.Desk(conn, snapshot, day, now, request.args)


def page(template, desk=None, status=200, **told):
    """A screen with its head: the stamp, the age, the clerk, and the rows without a reply."""
    told.update(desk=desk, waiting=g.clerk.waiting() if g.get("clerk") else [],
                initials=g.get("initials"))
    if desk:
        now, stamp = time.time(), desk.snapshot.stamp
        told.update(stamp=reporting.time_text(stamp), read=desk.snapshot.read,
                    read_text=words.moment(desk.snapshot.read), machine=words.moment(now),
                    apart=words.age(abs(int(now * 1000) - stamp)),
                    is_ahead=stamp > now * 1000 + 60_000)
    return render_template(template, **told), status


def add_rows(app, given, snapshots):
    def first_step(kind, name="", wrong=None):
        values = {key: value for key, value in request.args.items() if key != "step"}
        with opened(given, snapshots) as desk:
            def record(name, field):
                key = values.get(field, "")
                return tables.record(desk.conn, name, **{name: int(key)}) if key.isdecimal() else {}

            head = record("account", "ACCOUNT")
            people = desk.all("persons", account=head["CA_ID"]) if head else []
            return page("row.html", desk, kind=kind, values=values, wrong_name=name, wrong=wrong,
                        head=head, fixed=rows.FIXED.get(kind), trade=record("trade", "TRADE"),
                        people=people)

    @app.route("/row/<kind>")
    def row(kind):
        """The form of a row, and with step=2 the row in words. Neither books anything."""
        if kind not in rows.ACTIONS:
            abort(404, f"The page books no row {kind}.")
        if not g.clerk:
            abort(403, NOTHING_BOOKED)
        if request.args.get("step") != "2":
            return first_step(kind)
        values = dict(request.args)
        values.update(zip(("FIRST", "LAST", "TAXID"), values.pop("PERSON", "").split("\t")))
        try:
            fields = rows.fields_of(kind, values)
            with opened(given, snapshots) as desk:
                percent = whole_setting("BRK_PRICE_PERCENT", 10)
                effect = rows.EFFECTS[kind](desk.conn, fields, g.clerk, percent)
                for same in g.clerk.same(fields)[-1:]:
                    effect.warn(f"Batch {same} has the same row, not ten minutes old.", "once more")
                return page("step.html", desk, kind=kind, fields=fields, effect=effect,
                            batch=g.clerk.new_batch())
        except rows.Wrong as error:
            return first_step(kind, *error.args)
        except desk_client.Refused as error:
            why = desk_client.words_of(error.fields)
            return first_step(kind, wrong=f"The desk refuses this: {why}")
        except desk_client.ClientError as error:
            return first_step(kind, wrong=f"{error} No estimate, so nothing to book yet.")

    @app.post("/book")
    def book():
        """The second step: the only request that books a row."""
        batch, fields = request.form.get("batch", ""), request.form.getlist("field")
        if not g.clerk:
            abort(403, NOTHING_BOOKED)
        is_ours = batch.startswith(f"PAGE-{g.clerk.initials}-")
        if not is_ours or not fields or fields[0] not in rows.ACTIONS:
            abort(400, "This is no form of yours: begin anew.")
        return sent(fields, batch, lambda: g.clerk.book(batch, fields))

    @app.post("/again")
    def again():
        """Sends a row without a reply once more, under its key."""
        batch = request.form.get("batch", "")
        if not g.clerk or batch not in g.clerk.journal.batches:
            abort(404, "Your journal has no such row.")
        return sent(g.clerk.journal.batches[batch][1], batch, lambda: g.clerk.again(batch))

    def sent(fields, batch, send):
        told = {"fields": fields, "batch": batch, "reply": None, "error": None}
        try:
            reply = told["reply"] = send()
            if reply.accepted:
                told.update(told=rows.told(fields, reply), link=rows.link_of(fields, reply))
        except (desk_client.ClientError, OSError, TypeError, ValueError) as error:
            told["error"] = str(error)
        try:
            with opened(given, snapshots) as desk:
                return page("sent.html", desk, **told)
        except (NoSnapshot, sqlite3.Error):
            return page("sent.html", **told)


def add_errors(app):
    def handled(status, title, todo, *kinds):
        def told(error):
            code = getattr(error, "code", None) or status
            why = getattr(error, "description", None) or str(error)
            if "URL was not found" in why:
                why = "This page has no such address."
            if code == 500:
                app.logger.exception("a fault of the page")
                why = f"{type(error).__name__}: {why}"
            return page("error.html", status=code, why=why, todo=todo,
                        title=title or getattr(error, "name", "Not so"))

        for kind in kinds:
            app.register_error_handler(kind, told)

    handled(503, "No snapshot", "This screen tries again by itself. Rows that you sent are safe: a "
            "red line has those without a reply.", NoSnapshot)
    handled(400, "Not so", "Go back, and correct it.", reporting.Refused, ValueError)
    handled(503, "No journal", "If another program has your journal, end that program. Then load "
            "this anew.", desk_client.ClientError)
    handled(500, None, "Begin with Today, or find what you look for above.", HTTPException)
    handled(500, "A fault of the page", "Nothing was booked. Its program printed what was wrong.",
            Exception)
