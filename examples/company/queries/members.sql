SELECT LIT(LEX(c2)) AS c1, LIT(LEX(c9), '@en-gb') AS c2 FROM (SELECT * FROM (TABLE "employee") AS t1 LEFT JOIN (TABLE "department") AS t2 ON AND(NOT(IS_NULL(c4)), SAME(c8, c4))) AS t
