"""The chart of `bin/speeds --page`: panels of bars, as SVG. It has a background of its own, which is dark if the reader prefers dark pages."""

INK, GROUND, BLUE, GREY = "#4b5563", "#ffffff", "#3b82f6", "#9aa3ad"  # the ink has a contrast of more than 4.5 to 1 on its ground, and so in the dark
DARK = "@media (prefers-color-scheme: dark) { svg { fill: #c9d1d9; } .ground { fill: #0d1117; } }"
FONTS = "system-ui, -apple-system, 'Segoe UI', 'Helvetica Neue', Helvetica, Arial, sans-serif"
WIDTH = 910
LONGEST = 168


def words_at(x, y, words, size=12, more=""):
    words = words.replace("&", "&amp;").replace("<", "&lt;")
    return f'<text x="{x:g}" y="{y:g}" font-size="{size}"{more}>{words}</text>'


def bar_at(x, y, length, colour):
    """A bar from x to the right. A bar that is too long is cut off, and has a gap before its end."""
    if length <= LONGEST:
        return f'<rect x="{x:g}" y="{y:g}" width="{max(length, 1.5):.1f}" height="11" rx="2" fill="{colour}"/>'
    end = x + LONGEST
    whole = f"M{x:g} {y:g}H{end - 12:g}l-5 11H{x:g}z"
    piece = f"M{end - 8:g} {y:g}H{end:g}v11H{end - 13:g}z"
    return f'<path d="{whole}{piece}" fill="{colour}"/>'


def panel(x, y, title, note, groups, most, shown):
    """A panel, and where it ends: groups of a label and bars, each of a name and a number. The first bar of a group is ours. Bars of
    numbers above `most` are cut off, and the note then says so."""
    if any(number > most for _, bars in groups for _, number in bars):
        note += "; a gap marks a bar that is cut off"
    parts = [words_at(x, y, title, 15, ' font-weight="700"'), words_at(x, y + 17, note)]
    y += 30
    for label, bars in groups:
        parts.append(words_at(x, y + 10, label, 12, ' font-weight="600"'))
        for place, (name, number) in enumerate(bars):
            colour, weight = (GREY, "") if place else (BLUE, ' font-weight="700"')
            length = LONGEST * number / most
            parts.append(words_at(x + 196, y + 10, name, 11, f' text-anchor="end"{weight}'))
            parts.append(bar_at(x + 203, y, length, colour))
            parts.append(words_at(x + 209 + min(length, LONGEST), y + 10, shown(number), 11, weight))
            y += 14
        y += 8
    return parts, y


def drawn(left, right, title, note):
    """The whole picture: two columns of panels, each panel as `panel` takes it from the title on."""
    parts, ends = [], []
    for x, column in (6, left), (WIDTH // 2 + 10, right):
        y = 20
        for what in column:
            more, y = panel(x, y, *what)
            parts += more
            y += 22
        ends.append(y)
    height = max(ends) + 2
    yield f'<svg xmlns="http://www.w3.org/2000/svg" viewBox="0 0 {WIDTH} {height}" width="{WIDTH}" height="{height}" role="img" fill="{INK}"'
    yield f' font-family="{FONTS}">'
    yield f"<title>{title}</title>"
    yield f"<style>{DARK}</style>"
    yield f'<rect class="ground" width="{WIDTH}" height="{height}" fill="{GROUND}"/>'
    yield from parts
    yield words_at(6, height - 8, note, 11)
    yield "</svg>"
