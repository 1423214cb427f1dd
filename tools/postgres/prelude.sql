-- The functions of a plan's notation, for the queries that plan.py writes (docs/DEFINITIONS.md, `value_of`). They stand in a schema
-- of their own, vkg, and may be loaded again. They ask for a database in UTF-8; PostgreSQL 15 is what they were tried with.
--
-- A term is its text in N-Quads; an error of SPARQL is NULL. Functions of one SELECT without STRICT are written out where they are
-- called, so that the planner sees through them; only safe, blank and what takes literals apart are called for each row.
SET client_min_messages = warning;
CREATE SCHEMA IF NOT EXISTS vkg;

-- ---- natural lexical forms (R2RML, 10.2) ----

CREATE OR REPLACE FUNCTION vkg.lex(x text) RETURNS text LANGUAGE sql IMMUTABLE PARALLEL SAFE AS
$$ SELECT x COLLATE "C" $$;

CREATE OR REPLACE FUNCTION vkg.lex(x smallint) RETURNS text LANGUAGE sql IMMUTABLE PARALLEL SAFE AS
$$ SELECT x::text COLLATE "C" $$;

CREATE OR REPLACE FUNCTION vkg.lex(x integer) RETURNS text LANGUAGE sql IMMUTABLE PARALLEL SAFE AS
$$ SELECT x::text COLLATE "C" $$;

CREATE OR REPLACE FUNCTION vkg.lex(x bigint) RETURNS text LANGUAGE sql IMMUTABLE PARALLEL SAFE AS
$$ SELECT x::text COLLATE "C" $$;

-- without zeros at the end of the fraction
CREATE OR REPLACE FUNCTION vkg.lex(x numeric) RETURNS text LANGUAGE sql IMMUTABLE PARALLEL SAFE AS
$$ SELECT CASE WHEN x::text LIKE '%.%' THEN rtrim(rtrim(x::text, '0'), '.') ELSE x::text END COLLATE "C" $$;

CREATE OR REPLACE FUNCTION vkg.lex(x boolean) RETURNS text LANGUAGE sql IMMUTABLE PARALLEL SAFE AS
$$ SELECT x::text COLLATE "C" $$;

-- whatever DateStyle is set
CREATE OR REPLACE FUNCTION vkg.lex(x date) RETURNS text LANGUAGE sql STABLE PARALLEL SAFE AS
$$ SELECT to_char(x, 'YYYY-MM-DD') COLLATE "C" $$;

CREATE OR REPLACE FUNCTION vkg.lex(x timestamp) RETURNS text LANGUAGE sql STABLE PARALLEL SAFE AS
$$ SELECT to_char(x, 'YYYY-MM-DD"T"HH24:MI:SS') || rtrim(to_char(x, '.US'), '.0') COLLATE "C" $$;

CREATE OR REPLACE FUNCTION vkg.lex(x time) RETURNS text LANGUAGE sql STABLE PARALLEL SAFE AS
$$ SELECT x::text COLLATE "C" $$;

CREATE OR REPLACE FUNCTION vkg.lex(x bytea) RETURNS text LANGUAGE sql IMMUTABLE PARALLEL SAFE AS
$$ SELECT upper(encode(x, 'hex')) COLLATE "C" $$;

-- ---- IRIs and blank nodes ----

-- R2RML, 7.3, IRI-safe version, of a text that is not empty: each character outside iunreserved (RFC 3987, 2.2) as its octets
CREATE OR REPLACE FUNCTION vkg.encoded(x text) RETURNS text LANGUAGE sql IMMUTABLE PARALLEL SAFE AS
$$
  SELECT string_agg(
      CASE WHEN c ~ ('[A-Za-z0-9._~\u00A0-\uD7FF\uF900-\uFDCF\uFDF0-\uFFEF\U00010000-\U0001FFFD\U00020000-\U0002FFFD'
                     '\U00030000-\U0003FFFD\U00040000-\U0004FFFD\U00050000-\U0005FFFD\U00060000-\U0006FFFD\U00070000-\U0007FFFD'
                     '\U00080000-\U0008FFFD\U00090000-\U0009FFFD\U000A0000-\U000AFFFD\U000B0000-\U000BFFFD\U000C0000-\U000CFFFD'
                     '\U000D0000-\U000DFFFD\U000E1000-\U000EFFFD-]') THEN c
           ELSE regexp_replace(upper(encode(convert_to(c, 'UTF8'), 'hex')), '(..)', '%\1', 'g') END, '' ORDER BY place)
  FROM unnest(string_to_array(x, NULL)) WITH ORDINALITY AS characters (c, place)
$$;

CREATE OR REPLACE FUNCTION vkg.safe(x text) RETURNS text LANGUAGE sql IMMUTABLE PARALLEL SAFE AS
$$ SELECT CASE WHEN x ~ '^[A-Za-z0-9._~-]*$' THEN x ELSE vkg.encoded(x) END $$;

CREATE OR REPLACE FUNCTION vkg.iri(x text) RETURNS text LANGUAGE sql IMMUTABLE PARALLEL SAFE AS
$$ SELECT '<' || x || '>' $$;

-- R2RML, 7.4: what is no absolute IRI (a scheme, a colon, and what N-Quads allows in an IRI) stands behind the base
CREATE OR REPLACE FUNCTION vkg.iri_of(base text, x text) RETURNS text LANGUAGE sql IMMUTABLE PARALLEL SAFE AS
$$ SELECT CASE WHEN x ~ '^[A-Za-z][A-Za-z0-9+.-]*:[^\u0001-\u0020<>"{}|^`\\]*$' THEN x ELSE base || x END $$;

CREATE OR REPLACE FUNCTION vkg.blank(x text) RETURNS text LANGUAGE sql IMMUTABLE PARALLEL SAFE AS
$$ SELECT '_:b' || encode(convert_to(x, 'UTF8'), 'hex') $$;

-- ---- literals (N-Quads, 4) ----

CREATE OR REPLACE FUNCTION vkg.escaped(x text) RETURNS text LANGUAGE sql IMMUTABLE PARALLEL SAFE AS
$$ SELECT replace(replace(replace(replace(replace(x, '\', '\\'), '"', '\"'), E'\n', '\n'), E'\r', '\r'), E'\t', '\t') $$;

-- a backslash within is first made an escape that nothing else has, so that each step finds whole escapes
CREATE OR REPLACE FUNCTION vkg.unescaped(x text) RETURNS text LANGUAGE sql IMMUTABLE PARALLEL SAFE AS
$$
  SELECT replace(replace(replace(replace(replace(replace(x, '\\', '\b'), '\"', '"'), '\n', E'\n'), '\r', E'\r'), '\t', E'\t'), '\b', '\')
$$;

-- `finish` is what stands behind the form: the closing quote, and a tag or a datatype
CREATE OR REPLACE FUNCTION vkg.lit(x text, finish text) RETURNS text LANGUAGE sql IMMUTABLE PARALLEL SAFE AS
$$ SELECT '"' || vkg.escaped(x) || finish $$;

-- the same of a form in which nothing is to be escaped
CREATE OR REPLACE FUNCTION vkg.lit_of_form(x text, finish text) RETURNS text LANGUAGE sql IMMUTABLE PARALLEL SAFE AS
$$ SELECT '"' || x || finish $$;

-- what stands behind the closing quote of a literal, which is its last quote
CREATE OR REPLACE FUNCTION vkg.annotation(t text) RETURNS text LANGUAGE sql IMMUTABLE PARALLEL SAFE AS
$$ SELECT right(t, strpos(reverse(t), '"') - 1) $$;

CREATE OR REPLACE FUNCTION vkg.form(t text) RETURNS text LANGUAGE sql IMMUTABLE PARALLEL SAFE AS
$$ SELECT vkg.unescaped(substr(t, 2, length(t) - strpos(reverse(t), '"') - 1)) COLLATE "C" $$;

-- ---- known values (the profile of docs/DECISIONS.md) ----

-- how many digits of a number count: zeros at either end do not
CREATE OR REPLACE FUNCTION vkg.width(x text) RETURNS integer LANGUAGE sql IMMUTABLE PARALLEL SAFE AS
$$ SELECT length(ltrim(split_part(ltrim(x, '+-'), '.', 1), '0')) + length(rtrim(split_part(x, '.', 2), '0')) $$;

-- a day of the calendar, of the years 0001 to 9999
CREATE OR REPLACE FUNCTION vkg.is_day(x text) RETURNS boolean LANGUAGE sql IMMUTABLE PARALLEL SAFE AS
$$
  SELECT CASE WHEN x !~ '^[0-9]{4}-(0[1-9]|1[0-2])-[0-9]{2}$' OR x < '0001' COLLATE "C" THEN FALSE
    ELSE right(x, 2)::integer BETWEEN 1 AND extract(day FROM make_date(left(x, 4)::integer, substr(x, 6, 2)::integer, 1)
                                                             + interval '1 month' - interval '1 day') END
$$;

-- the sort of a literal's known value, and the value: a number, or a form that compares by its bytes; no sort where none is known
CREATE OR REPLACE FUNCTION vkg.known(t text, OUT sort text, OUT number numeric, OUT form text) LANGUAGE plpgsql IMMUTABLE PARALLEL SAFE AS
$$
DECLARE
  written text;
BEGIN
  IF left(t, 1) <> '"' THEN RETURN; END IF;
  written := vkg.form(t);
  CASE vkg.annotation(t)
    WHEN '' THEN
      sort := 'string'; form := written;
    WHEN '^^<http://www.w3.org/2001/XMLSchema#integer>' THEN
      IF written ~ '^[+-]?[0-9]+$' AND vkg.width(written) <= 38 THEN sort := 'number'; number := written::numeric; END IF;
    WHEN '^^<http://www.w3.org/2001/XMLSchema#decimal>' THEN
      IF written ~ '^[+-]?([0-9]+(\.[0-9]*)?|\.[0-9]+)$' AND vkg.width(written) <= 38 THEN sort := 'number'; number := written::numeric; END IF;
    WHEN '^^<http://www.w3.org/2001/XMLSchema#boolean>' THEN
      IF written IN ('true', '1', 'false', '0') THEN sort := 'boolean'; form := (written IN ('true', '1'))::text; END IF;
    WHEN '^^<http://www.w3.org/2001/XMLSchema#date>' THEN
      IF vkg.is_day(written) THEN sort := 'date'; form := written; END IF;
    WHEN '^^<http://www.w3.org/2001/XMLSchema#dateTime>' THEN
      IF vkg.is_day(left(written, 10)) AND substr(written, 11) ~ '^T([01][0-9]|2[0-3]):[0-5][0-9]:[0-5][0-9](\.[0-9]{1,9})?$' THEN
        sort := 'dateTime'; form := CASE WHEN written LIKE '%.%' THEN rtrim(rtrim(written, '0'), '.') ELSE written END;
      END IF;
    ELSE
  END CASE;
END
$$;

-- the order of two known values of one sort: below, at or above 0
CREATE OR REPLACE FUNCTION vkg.compared(a text, b text) RETURNS integer LANGUAGE plpgsql IMMUTABLE PARALLEL SAFE AS
$$
DECLARE
  one record := vkg.known(a);
  other record := vkg.known(b);
BEGIN
  IF one.sort IS NULL OR other.sort IS NULL OR one.sort <> other.sort THEN RETURN NULL; END IF;
  IF one.sort = 'number' THEN RETURN sign(one.number - other.number); END IF;
  RETURN CASE WHEN one.form = other.form THEN 0 WHEN one.form < other.form COLLATE "C" THEN -1 ELSE 1 END;
END
$$;

-- ---- the order of terms (SPARQL 1.1 Query, 15.1; "The order of answers" of docs/DECISIONS.md) ----

-- nothing, blank nodes, IRIs, and literals by the sort of their known value; within a class by a number, or a text that compares by its bytes
CREATE OR REPLACE FUNCTION vkg.rank(t text, OUT class integer, OUT number numeric, OUT form text) LANGUAGE plpgsql IMMUTABLE PARALLEL SAFE AS
$$
DECLARE
  value record := vkg.known(t);
BEGIN
  class := CASE WHEN t IS NULL THEN 0 WHEN t LIKE '\_%' THEN 1 WHEN t LIKE '<%' THEN 2 WHEN value.sort IS NULL THEN 8
    ELSE 2 + array_position(ARRAY['number', 'string', 'boolean', 'dateTime', 'date'], value.sort) END;
  number := value.number;
  form := CASE class WHEN 2 THEN substr(t, 2, length(t) - 2) WHEN 1 THEN t WHEN 8 THEN t ELSE value.form END;
END
$$;

-- ---- operators (SPARQL 1.1 Query, 17.3 and 17.4) ----

-- by value, else two literals that are not one term are an error
CREATE OR REPLACE FUNCTION vkg.eq(a text, b text) RETURNS boolean LANGUAGE sql IMMUTABLE PARALLEL SAFE AS
$$ SELECT CASE WHEN a = b THEN TRUE WHEN a LIKE '"%' AND b LIKE '"%' THEN vkg.compared(a, b) = 0 WHEN a <> b THEN FALSE END $$;

CREATE OR REPLACE FUNCTION vkg.ne(a text, b text) RETURNS boolean LANGUAGE sql IMMUTABLE PARALLEL SAFE AS
$$ SELECT NOT vkg.eq(a, b) $$;

CREATE OR REPLACE FUNCTION vkg.lt(a text, b text) RETURNS boolean LANGUAGE sql IMMUTABLE PARALLEL SAFE AS
$$ SELECT vkg.compared(a, b) < 0 $$;

CREATE OR REPLACE FUNCTION vkg.gt(a text, b text) RETURNS boolean LANGUAGE sql IMMUTABLE PARALLEL SAFE AS
$$ SELECT vkg.compared(a, b) > 0 $$;

CREATE OR REPLACE FUNCTION vkg.le(a text, b text) RETURNS boolean LANGUAGE sql IMMUTABLE PARALLEL SAFE AS
$$ SELECT vkg.compared(a, b) <= 0 $$;

CREATE OR REPLACE FUNCTION vkg.ge(a text, b text) RETURNS boolean LANGUAGE sql IMMUTABLE PARALLEL SAFE AS
$$ SELECT vkg.compared(a, b) >= 0 $$;

CREATE OR REPLACE FUNCTION vkg.is_iri(t text) RETURNS boolean LANGUAGE sql IMMUTABLE PARALLEL SAFE AS
$$ SELECT t LIKE '<%' $$;

CREATE OR REPLACE FUNCTION vkg.is_blank(t text) RETURNS boolean LANGUAGE sql IMMUTABLE PARALLEL SAFE AS
$$ SELECT t LIKE '\_%' $$;

CREATE OR REPLACE FUNCTION vkg.is_literal(t text) RETURNS boolean LANGUAGE sql IMMUTABLE PARALLEL SAFE AS
$$ SELECT t LIKE '"%' $$;

CREATE OR REPLACE FUNCTION vkg.is_numeric(t text) RETURNS boolean LANGUAGE sql IMMUTABLE PARALLEL SAFE AS
$$ SELECT CASE WHEN t IS NOT NULL THEN coalesce((vkg.known(t)).sort = 'number', FALSE) END $$;

CREATE OR REPLACE FUNCTION vkg.str(t text) RETURNS text LANGUAGE sql IMMUTABLE PARALLEL SAFE AS
$$
  SELECT CASE left(t, 1) WHEN '<' THEN vkg.lit(substr(t, 2, length(t) - 2), '"')
    WHEN '"' THEN left(t, length(t) - strpos(reverse(t), '"') + 1) END
$$;

CREATE OR REPLACE FUNCTION vkg.lang(t text) RETURNS text LANGUAGE sql IMMUTABLE PARALLEL SAFE AS
$$ SELECT CASE WHEN t LIKE '"%' THEN '"' || CASE WHEN vkg.annotation(t) LIKE '@%' THEN substr(vkg.annotation(t), 2) ELSE '' END || '"' END $$;

CREATE OR REPLACE FUNCTION vkg.datatype(t text) RETURNS text LANGUAGE sql IMMUTABLE PARALLEL SAFE AS
$$
  SELECT CASE WHEN t LIKE '"%' THEN CASE left(vkg.annotation(t), 1) WHEN '' THEN '<http://www.w3.org/2001/XMLSchema#string>'
    WHEN '@' THEN '<http://www.w3.org/1999/02/22-rdf-syntax-ns#langString>' ELSE substr(vkg.annotation(t), 3) END END
$$;

-- 17.4.3.1: a string is a plain literal or one with a tag; two are compatible where the second is plain, or both have one tag
CREATE OR REPLACE FUNCTION vkg.is_string(t text) RETURNS boolean LANGUAGE sql IMMUTABLE PARALLEL SAFE AS
$$ SELECT t LIKE '"%' AND vkg.annotation(t) NOT LIKE '^%' $$;

CREATE OR REPLACE FUNCTION vkg.are_compatible(a text, b text) RETURNS boolean LANGUAGE sql IMMUTABLE PARALLEL SAFE AS
$$ SELECT vkg.is_string(a) AND vkg.is_string(b) AND vkg.annotation(b) IN ('', vkg.annotation(a)) $$;

CREATE OR REPLACE FUNCTION vkg.strlen(t text) RETURNS text LANGUAGE sql IMMUTABLE PARALLEL SAFE AS
$$ SELECT CASE WHEN vkg.is_string(t) THEN '"' || length(vkg.form(t)) || '"^^<http://www.w3.org/2001/XMLSchema#integer>' END $$;

CREATE OR REPLACE FUNCTION vkg.strstarts(a text, b text) RETURNS boolean LANGUAGE sql IMMUTABLE PARALLEL SAFE AS
$$ SELECT CASE WHEN vkg.are_compatible(a, b) THEN starts_with(vkg.form(a), vkg.form(b)) END $$;

CREATE OR REPLACE FUNCTION vkg.strends(a text, b text) RETURNS boolean LANGUAGE sql IMMUTABLE PARALLEL SAFE AS
$$ SELECT CASE WHEN vkg.are_compatible(a, b) THEN right(vkg.form(a), length(vkg.form(b))) = vkg.form(b) END $$;

CREATE OR REPLACE FUNCTION vkg.contains(a text, b text) RETURNS boolean LANGUAGE sql IMMUTABLE PARALLEL SAFE AS
$$ SELECT CASE WHEN vkg.are_compatible(a, b) THEN strpos(vkg.form(a), vkg.form(b)) > 0 END $$;

-- 17.2.2, effective boolean value; that of an ill-typed boolean or number is false, that of a number of more than 38 digits an error
CREATE OR REPLACE FUNCTION vkg.ebv(t text) RETURNS boolean LANGUAGE plpgsql IMMUTABLE PARALLEL SAFE AS
$$
DECLARE
  value record := vkg.known(t);
BEGIN
  IF left(t, 1) <> '"' THEN RETURN NULL; END IF;
  CASE
    WHEN value.sort = 'string' OR vkg.annotation(t) LIKE '@%' THEN RETURN t NOT LIKE '""%';
    WHEN value.sort = 'number' THEN RETURN value.number <> 0;
    WHEN value.sort = 'boolean' THEN RETURN value.form = 'true';
    WHEN vkg.annotation(t) = '^^<http://www.w3.org/2001/XMLSchema#boolean>' THEN RETURN FALSE;
    WHEN vkg.annotation(t) = '^^<http://www.w3.org/2001/XMLSchema#integer>' AND vkg.form(t) !~ '^[+-]?[0-9]+$' THEN RETURN FALSE;
    WHEN vkg.annotation(t) = '^^<http://www.w3.org/2001/XMLSchema#decimal>'
      AND vkg.form(t) !~ '^[+-]?([0-9]+(\.[0-9]*)?|\.[0-9]+)$' THEN RETURN FALSE;
    ELSE RETURN NULL;
  END CASE;
END
$$;
