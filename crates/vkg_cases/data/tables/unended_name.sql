CREATE TABLE t ("abc,d
e" TEXT);