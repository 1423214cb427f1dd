"""The files of tables as CSV, each field in one of its spellings (README.md, the table of types)."""


def spelled_number(chance, kind, form):
    """An integer or a decimal with a sign and with zeros that do not count."""
    sign, digits = ("-", form[1:]) if form.startswith("-") else (chance.choice(["", "", "+"]), form)
    if digits == "0":
        sign = chance.choice(["", "+", "-"])
    whole, _, fraction = digits.partition(".")
    whole = chance.choice(["", "", "0", "00"]) + whole
    if kind == "decimal" and chance.happens(0.4):
        fraction += chance.choice(["", "0", "000"])
        if fraction and not whole.strip("0") and chance.happens(0.5):
            whole = ""
        return f"{sign}{whole}.{fraction}"
    return f"{sign}{whole}.{fraction}" if fraction else sign + whole


def spelled(chance, kind, form):
    """A field of a kind that means a lexical form."""
    if kind in ("integer", "decimal"):
        return spelled_number(chance, kind, form)
    if kind == "boolean":
        return chance.any_case(chance.choice(["true", "t", "1"] if form == "true" else ["false", "f", "0"]))
    if kind in ("dateTime", "time"):
        clock, _, fraction = form.partition(".")
        fraction = fraction.ljust(chance.choice([0, 0, 1, 3, 9]), "0")
        return clock.replace("T", chance.choice("T ")) + ("." + fraction if fraction else "")
    return chance.any_case(form) if kind == "hexBinary" else form


def field(chance, column, form):
    """A field of a column; NULL is `\\N`, or an empty field where the column holds no text."""
    if form is None:
        return "" if column.kind != "string" and chance.happens(0.4) else "\\N"
    return spelled(chance, column.kind, form)


def quoted(chance, text, is_alone):
    """A field in quotes where it has to be, or at random; an empty one that is a whole line has to be (a blank line is none)."""
    if any(char in text for char in ',"\r\n') or is_alone and text == "" or chance.happens(0.15):
        return '"' + text.replace('"', '""') + '"'
    return text


def csv_text(chance, table):
    """The file of a table, its columns in any order, with blank lines at random."""
    order = chance.sample(range(len(table.columns)), len(table.columns))
    end, lines = chance.choice(["\n", "\n", "\r\n", "\r"]), []
    header = [table.columns[place].name for place in order]
    rows = [[field(chance, table.columns[place], row[place]) for place in order] for row in table.rows]
    for fields in [header, *rows]:
        lines.append(",".join(quoted(chance, text, len(order) == 1) for text in fields))
        if chance.happens(0.1):
            lines.append("")
    return chance.choice(["", "", "", "\ufeff"]) + end.join(lines) + chance.choice([end, end, ""])
