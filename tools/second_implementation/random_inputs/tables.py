"""Random databases that meet their schemas."""
from random_inputs.drafts import random_drafts

VALUES = {
    "string": ["", "a", "b", "Ann", "Müller, Bo", 'say "hi"', '"', "line\nfeed", "cr\r\nlf", "\r", "tab\t", "😀", "100%", "%41",
               " ", " a ", "http://e/q", "urn:x:1", "a b", "7", "07", "true", "{x}", "back\\slash", "\\n", "it's", "\u00a0",
               "\u2028", "\ue000", "\ufdd0", "\ufeffb", "\x01", "\x7f", "\U0010ffff", "x/../y", "#f", "?q", "a;b=c", "é",
               "e\u0301", "N", "_:b61", "<a>", "http://e/ü?x=1#y", "2024-02-29", "http://e/100%", ",", "'''", "x\u0085y",
               "mailto:a@b.c", "A", "zz", "nul\0", "a\\N"],
    "integer": ["0", "1", "2", "3", "7", "-3", "42", "10", 38 * "9", "-12345678901234567890"],
    "decimal": ["0", "1", "2", "7", "7.5", "-0.25", "100", "0.001", "-3", "42", "0.5", "12345678901234567890.123456789012345678"],
    "boolean": ["true", "false"],
    "date": ["2024-02-29", "1999-04-01", "0001-01-01", "9999-12-31", "2000-02-29"],
    "dateTime": ["2024-02-29T12:00:00", "2024-02-29T12:00:00.5", "1999-12-31T23:59:59.123456789", "0001-01-01T00:00:00",
                 "2024-02-29T12:00:00.05"],
    "hexBinary": ["0AFF", "00", "DEADBEEF", "0A", "FF"],
    "time": ["09:05:00", "09:05:00.5", "23:59:59.123456789", "00:00:00", "09:05:00.05"],
}


def pick_value(chance, kind):
    """A canonical lexical form of a kind; the first few are drawn more often, so that joins find partners."""
    if kind == "string" and chance.happens(0.2):
        return "".join(chance.choice(VALUES[kind]) for _ in range(2))
    return chance.choice(VALUES[kind][:6] if chance.happens(0.5) else VALUES[kind])


def partners(drafts, reference):
    """The values of the rows to which a reference can lead: those that its columns can hold."""
    found = []
    for row in drafts[reference.table].rows:
        forms = [row[target.name] for target in reference.target]
        if all(form is not None and not (column.kind == "integer" and "." in form)
               for column, form in zip(reference.columns, forms)):
            found.append(forms)
    return found


def refer(chance, drafts, reference, row):
    """Fills the columns of a reference with a partner's values, or with NULL somewhere; says whether it could."""
    found = partners(drafts, reference)
    nullable = [column for column in reference.columns if not column.not_null]
    if found and not (nullable and chance.happens(0.25)):
        row.update(zip([column.name for column in reference.columns], chance.choice(found)))
        return True
    if not nullable:
        return False
    for column in reference.columns:
        row[column.name] = pick_value(chance, column.kind) if column.not_null or chance.happens(0.3) else None
    row[chance.choice(nullable).name] = None
    return True


def breaks_key(draft, row):
    """Whether a row repeats a key of a table."""
    for key in draft.keys:
        forms = [row[column.name] for column in key]
        if None not in forms and forms in [[other[column.name] for column in key] for other in draft.rows]:
            return True
    return False


def fill(chance, drafts):
    """Gives each table rows; references to the same table and to later ones are filled when all rows are there."""
    late = []
    for number, draft in enumerate(drafts):
        early = [one for one in draft.references if one.table < number]
        rest = [one for one in draft.references if one.table >= number]
        for _ in range(chance.choice([0, 1, 2, 2, 3, 3, 4, 5, 6])):
            row = {column.name: None if not column.not_null and chance.happens(0.25) else pick_value(chance, column.kind)
                   for column in draft.columns}
            row.update((column.name, None) for reference in rest for column in reference.columns)
            if all(refer(chance, drafts, reference, row) for reference in early) and not breaks_key(draft, row):
                draft.rows.append(row)
                late += [(reference, row) for reference in rest]
    for reference, row in late:
        refer(chance, drafts, reference, row)


def random_tables(chance):
    """A random database."""
    drafts = random_drafts(chance)
    fill(chance, drafts)
    return [draft.table(drafts) for draft in drafts]
