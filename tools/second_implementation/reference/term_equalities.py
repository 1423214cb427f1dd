"""The rules TermEquality and TermComparison: an equality of two terms as equalities of columns, forms or texts (docs/DEFINITIONS.md, `verdict_of`).

Terms are compared by the expressions that make them of the columns of tables, as a mapping's do. A verdict is the list of the
equalities that all hold exactly where the two terms are one, or None where they never are.
"""
from collections import namedtuple
from urllib.parse import unquote_to_bytes

from reference.datatypes import BadField, lexical_form
from reference.iris import iri_safe, is_unreserved
from reference.plan_nodes import (FALSE, Anti, Call, Column, Constant, Empty, Project, Scan, UnionAll, call, columns_in, conjunction,
                                  in_conjuncts, kinds_of, subplans, text_constant)
from reference.rdf import blank
from reference.tables import family

# A hole is a column of a kind. A term is made of pieces, texts and holes, as one of a sort: `iri`, `blank`, or a literal's
# annotation. Without pieces (None) are a column over a base, and a blank node with a label that no text gives.
Hole = namedtuple("Hole", "place kind")
Made = namedtuple("Made", "sort pieces text")


# ---- expressions that make terms (R2RML, 7 and 11.2) ----


def form_of(expression, is_safe):
    """The column of which an expression is the lexical form, made IRI-safe or not, or None."""
    match expression:
        case Call("SAFE", (Call("LEX", (Column(place),)),)) if is_safe:
            return place
        case Call("LEX", (Column(place),)) if not is_safe:
            return place
    return None


def piece(expression, is_safe, kinds):
    """A text, or a hole, or None."""
    match expression:
        case Constant("string", str(text)):
            return text
    place = form_of(expression, is_safe)
    return None if place is None else Hole(place, kinds[place])


def composed(sort, expression, kinds):
    """A term made of pieces: of two or more in a Concat, or of one alone; None where a part is no piece."""
    parts = expression.arguments if isinstance(expression, Call) and expression.name == "CONCAT" else (expression,)
    if len(parts) == 1 and parts[0] is not expression:
        return None
    pieces = [piece(part, sort == "iri", kinds) for part in parts]
    return None if None in pieces or not pieces else Made(sort, pieces, expression)


def recognised(expression, kinds):
    """The term that an expression makes, if it is one of those that a mapping's term maps give."""
    match expression:
        case Constant("term", value) if value is not None:
            return fixed(value)
        case Call("IRI", (Call("IRI_OF", (_, form)) as text,)) if form_of(form, False) is not None:
            return Made("iri", None, text)
        case Call("IRI", (text,)):
            return composed("iri", text, kinds)
        case Call("BLANK", (text,)):
            return composed("blank", text, kinds)
        case Call("LIT", (text, *notes)):
            return composed(notes[0].value if notes else "", text, kinds)
    return None


def labelled(label):
    """The text whose blank node has a label, or None (R2RML, 11.2)."""
    try:
        text = bytes.fromhex(label[1:]).decode()
    except ValueError:
        return None
    return text if blank(text).text == label else None


def fixed(term):
    """The pieces of a constant term."""
    if term.kind == "literal":
        note = "@" + term.language if term.language else "^^" + term.datatype if term.datatype else ""
        return Made(note, [term.text], text_constant(term.text))
    text = labelled(term.text) if term.kind == "blank" else term.text
    return Made(term.kind, None if text is None else [text], text_constant(term.text))


# ---- the verdict ----


def is_break(char):
    """Whether no IRI-safe text holds a character (R2RML, 7.3)."""
    return not (is_unreserved(char) or char == "%")


def cut(sort, pieces):
    """Segments of pieces, and the breaks between them: in an IRI a break ends what a hole's text can reach. Texts that meet are one."""
    segments, breaks = [[]], []
    for one in pieces:
        for part in [one] if isinstance(one, Hole) else one:
            if isinstance(part, Hole) or not segments[-1] and not (sort == "iri" and is_break(part)):
                segments[-1].append(part)
            elif sort == "iri" and is_break(part):
                segments.append([])
                breaks.append(part)
            elif isinstance(segments[-1][-1], Hole):
                segments[-1].append(part)
            else:
                segments[-1][-1] += part
    return segments, breaks


def text_of(sort, pieces):
    """The expression of a text of pieces."""
    parts = []
    for one in pieces:
        form = call("LEX", Column(one.place)) if isinstance(one, Hole) else text_constant(one)
        parts.append(call("SAFE", form) if isinstance(one, Hole) and sort == "iri" else form)
    if len(parts) > 1:
        return Call("CONCAT", tuple(parts))
    return parts[0] if parts else text_constant("")


def source_of(form):
    """The text whose IRI-safe form this is, or None (R2RML, 7.3)."""
    try:
        text = unquote_to_bytes(form).decode()
    except UnicodeDecodeError:
        return None
    return text if iri_safe(text) == form else None


def cell_constant(kind, form):
    """The constant of a kind whose lexical form this is, or None (R2RML, 10.2)."""
    try:
        if form is None or lexical_form(kind, form) != form:
            return None
    except BadField:
        return None
    return Constant(kind, form == "true" if kind == "boolean" else form)


def hole_makes(sort, hole, text):
    """That a hole makes a text."""
    cell = cell_constant(hole.kind, source_of(text) if sort == "iri" else text)
    return None if cell is None else [call("SAME", Column(hole.place), cell)]


def holes_agree(one, other):
    """That two holes make one text: cells of one family have one form exactly where they are equal."""
    columns = [Column(one.place), Column(other.place)]
    return [call("SAME", *columns) if family(one.kind) == family(other.kind) else call("SAME", *(call("LEX", each) for each in columns))]


def lone(what, pieces):
    """The only piece of some where it is a text (str) or a hole, or None."""
    return pieces[0] if len(pieces) == 1 and isinstance(pieces[0], what) else None


def segment_verdict(sort, one, other):
    """That two segments make one text."""
    texts = [lone(str, pieces or [""]) for pieces in (one, other)]
    holes = [lone(Hole, pieces) for pieces in (one, other)]
    if None not in texts:
        return [] if texts[0] == texts[1] else None
    for text, hole in (texts[0], holes[1]), (texts[1], holes[0]):
        if text is not None and hole is not None:
            return hole_makes(sort, hole, text)
    if None not in holes:
        return holes_agree(*holes)
    return [call("SAME", text_of(sort, one), text_of(sort, other))]


def verdict(one, other, are_constants):
    """The equalities under which two made terms are one, or None."""
    if one.sort != other.sort:
        return None
    if are_constants:
        return [] if one == other else None
    if None in (one.pieces, other.pieces):
        return None if one.sort == "blank" else [call("SAME", one.text, other.text)]
    (ours, our_breaks), (theirs, their_breaks) = cut(one.sort, one.pieces), cut(other.sort, other.pieces)
    if our_breaks != their_breaks:
        return None
    verdicts = [segment_verdict(one.sort, *pair) for pair in zip(ours, theirs)]
    return None if None in verdicts else sum(verdicts, [])


# ---- TermEquality ----


def table_columns(plan, tables):
    """Of each column of a plan whether its cells are cells of a column of a table, or NULL."""
    below = [table_columns(one, tables) for one in subplans(plan)]
    match plan:
        case Scan(_) | Empty(_):
            return [True for _ in kinds_of(plan, tables)]
        case Project(expressions, _):
            return [below[0][one.place] if isinstance(one, Column) else isinstance(one, Constant) and one.value is None
                    for one in expressions]
        case UnionAll(_):
            return [all(flags) for flags in zip(*below)]
        case Anti(_, _, _):
            return below[0]
    return sum(below, [])


def compared(expression, kinds, flags):
    """The term that an expression makes of columns of tables alone, or None."""
    made = recognised(expression, kinds)
    return made if made is not None and all(flags[place] for place in columns_in(expression)) else None


def decided(condition, kinds, flags):
    """An equality of two such terms as its verdict, or None."""
    match condition:
        case Call("SAME", (one, other)):
            made = compared(one, kinds, flags), compared(other, kinds, flags)
            if None not in made:
                found = verdict(*made, isinstance(one, Constant) and isinstance(other, Constant))
                return FALSE if found is None else conjunction(found)
    return None


def below(plan, tables):
    """The kinds of the columns over which a node's own expressions are, and which of them are columns of tables."""
    plans = subplans(plan)
    return sum((kinds_of(one, tables) for one in plans), ()), sum((table_columns(one, tables) for one in plans), [])


def term_equality(plan, tables):
    """TermEquality: the first conjunct that is an equality of two such terms becomes its verdict."""
    kinds, flags = below(plan, tables)
    return in_conjuncts(lambda condition: decided(condition, kinds, flags), plan)


# ---- TermComparison ----


def makes_no_literal(expression):
    """Whether an expression makes an IRI or a blank node, or is one."""
    match expression:
        case Constant("term", value):
            return value is not None and value.kind != "literal"
        case Call(name, _):
            return name in ("IRI", "BLANK")
    return False


def size(expression):
    """The nodes of an expression: a SAME counts twice, and so does an And or Or of none; the texts that IRI_OF and LIT have do not."""
    match expression:
        case Call("IRI_OF", (_, inner)) | Call("LIT", (inner, *_)):
            return 1 + size(inner)
        case Call(name, arguments):
            return (2 if name == "SAME" or not arguments else 1) + sum(map(size, arguments))
    return 1


def compared_by_operator(condition, kinds, flags):
    """What SPARQL's `=` asks of two such terms of which one is no literal, as the verdict on them, where that is smaller, or None."""
    match condition:
        case Call("EQ", (one, other)) if makes_no_literal(one) or makes_no_literal(other):
            found = decided(call("SAME", one, other), kinds, flags)
            return found if found is not None and size(found) < size(condition) else None
    return None


def term_comparison(plan, tables):
    """TermComparison: the first conjunct that compares two such terms, of which one is no literal, becomes its verdict, where that is smaller."""
    kinds, flags = below(plan, tables)
    return in_conjuncts(lambda condition: compared_by_operator(condition, kinds, flags), plan)
