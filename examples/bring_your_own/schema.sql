-- dumped.sql, cut to what vkg reads: the tables with their keys.
CREATE TABLE "Order Details" (
    "order" INTEGER NOT NULL,
    line SMALLINT NOT NULL,
    customer INTEGER,
    article TEXT NOT NULL,
    price NUMERIC(10,2),
    weight NUMERIC,
    paid BOOLEAN,
    changed TIMESTAMP,
    PRIMARY KEY ("order", line),
    FOREIGN KEY (customer) REFERENCES customer (id)
);

CREATE TABLE customer (
    id INTEGER NOT NULL,
    name VARCHAR(40) NOT NULL,
    email VARCHAR(80),
    since DATE,
    PRIMARY KEY (id)
);
