"""Plots as SVG: the ladder of due days, and cash over time. Shapes tell apart what colours do."""

from markupsafe import Markup, escape

from .words import amount_text, day_text, grouped

WIDTH, HEIGHT, LEFT, RIGHT, TOP, BOTTOM = 520, 180, 124, 10, 12, 28
# the ladder: where its bars begin, and the length of the longest
MIDDLE, LONGEST = 290, 85


def element(tag, content="", **attributes):
    names = [name.rstrip("_").replace("_", "-") for name in attributes]
    texts = [f' {name}="{escape(value)}"' for name, value in zip(names, attributes.values())]
    return Markup(f"<{tag}{''.join(texts)}>{content}</{tag}>")


def line(kind, x1, y1, x2, y2):
    return element("line", class_=kind, x1=x1, y1=y1, x2=x2, y2=y2)


def svg(label, parts, height=HEIGHT):
    title = element("title", escape(label))
    return element("svg", title + Markup("").join(parts), class_="plot", role="img",
                   viewBox=f"0 0 {WIDTH} {height}")


def steps_of(low, high):
    """Some round amounts from one amount to another."""
    step, factors = 1, (2, 2.5, 2)
    for factor in factors * 20:
        if (high - low) // step <= 5:
            break
        step = int(step * factor)
    return range(-(-low // step) * step, high + 1, step)


def over_time(points, name):
    """A line of amounts in cents by day, each until the next."""
    if not points:
        return ""
    (first, _), (last, cents) = points[0], points[-1]
    low, high = (limit(0, *(cents for _, cents in points)) for limit in (min, max))

    def x(day):
        return round(LEFT + (day - first) * (WIDTH - LEFT - RIGHT) / max(1, last - first), 1)

    def y(cents):
        return round(TOP + (high - cents) * (HEIGHT - TOP - BOTTOM) / max(1, high - low), 1)

    parts, path = [], f"M{x(first)} {y(points[0][1])}"
    for tick in steps_of(low, high):
        parts.append(line("grid" if tick else "axis", LEFT, y(tick), WIDTH - RIGHT, y(tick)))
        told = grouped(amount_text(tick))
        parts.append(element("text", told, x=LEFT - 6, y=y(tick) + 4, text_anchor="end"))
    for day, value in points:
        path += f"H{x(day)}V{y(value)}"
    parts.append(element("path", class_="line", d=path))
    for day, value in points if len(points) <= 60 else points[-1:]:
        told = element("title", f"{day_text(day)}: {grouped(amount_text(value))}")
        parts.append(element("circle", told, class_="spot", cx=x(day), cy=y(value), r=3,
                             data_day=day_text(day), data_cents=value))
    parts.append(element("text", day_text(first), x=x(first), y=HEIGHT - 8))
    if last > first:
        parts.append(element("text", day_text(last), x=x(last), y=HEIGHT - 8, text_anchor="end"))
    return svg(f"{name} until {day_text(last)}: {grouped(amount_text(cents))}", parts)


def ladder(rungs, today):
    """Bars of what is received and paid on each due day: day, cents in, cents out."""
    most = max((abs(cents) for _, *both in rungs for cents in both), default=0) or 1
    parts = [line("axis", MIDDLE, 0, MIDDLE, 26 * len(rungs) + 6)]
    for place, (day, received, paid) in enumerate(rungs):
        y, kind = 6 + 26 * place, "now" if day == today else "day"
        parts.append(element("text", day_text(day)[5:], x=0, y=y + 15, class_=kind))
        for cents, name, end in ((paid, "paid", MIDDLE - LONGEST - 6),
                                 (received, "received", WIDTH)):
            length = round(abs(cents) * LONGEST / most, 1)
            begin = MIDDLE - length if name == "paid" else MIDDLE
            parts.append(element("rect", class_=name, x=begin, y=y, width=length, height=20,
                                 data_day=day_text(day), data_cents=cents))
            told = grouped(amount_text(cents))
            parts.append(element("text", told, x=end, y=y + 15, text_anchor="end", class_=kind))
    return svg("Paid (left) and received (right) on each due day", parts, 26 * len(rungs) + 8)
