-- Writes the two tables as this folder's CSV files: psql -d DATABASE -f export.sql, called in this folder.
\encoding UTF8
\copy (SELECT id, name, email, since FROM customer ORDER BY id) TO 'data/customer.csv' WITH (FORMAT csv, HEADER, NULL '\N')
\copy (SELECT "order", line, customer, article, price, weight::numeric AS weight, paid, changed AT TIME ZONE 'UTC' AS changed FROM "Order Details" ORDER BY "order", line) TO 'data/Order%20Details.csv' WITH (FORMAT csv, HEADER, NULL '\N')
