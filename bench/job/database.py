"""The job of generate's plan in SQLite, by its JSON functions, in memory.

    database.py INPUT SIZE SLIDE
"""

import sqlite3
import sys

QUERY = """
WITH RECURSIVE
  steps(back) AS (VALUES (0) UNION ALL SELECT back + :slide FROM steps WHERE back + :slide < :size),
  records AS MATERIALIZED (
    SELECT record.value ->> 0 AS time, record.value ->> 1 AS key, record.value ->> 2 AS number
    FROM json_each(:input, '$.records') AS partition,
      json_each(partition.value) AS entry,
      json_each(entry.value, '$.rows') AS record),
  placed AS (
    SELECT time - (time % :slide + :slide) % :slide - back AS start, time, key, number
    FROM records, steps)
SELECT start, start + :size, key, count(*), sum(number), min(number), max(number)
FROM placed WHERE start > time - :size
GROUP BY start, key ORDER BY start, key
"""


def main():
    path, size, slide = sys.argv[1:]
    with open(path) as file:
        words = {"input": file.read(), "size": int(size), "slide": int(slide)}
    for row in sqlite3.connect(":memory:").execute(QUERY, words):
        print(*row)


main()
