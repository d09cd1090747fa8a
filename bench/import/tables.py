"""The input of `time:ms,customer:name,status,bytes,seconds:3` out of a CSV file, by pandas: tables.py FILE INPUT."""
import json
import sys

import pandas

table = pandas.read_csv(sys.argv[1])
rows = pandas.DataFrame({
    "time": pandas.to_datetime(table["time"], utc=True).astype("int64") // 10**6,
    "customer": pandas.factorize(table["customer"])[0] + 1,
    "status": table["status"],
    "bytes": table["bytes"],
    "seconds": (table["seconds"] * 1000).round().astype("int64"),
})
with open(sys.argv[2], "w") as out:
    out.write('{"s":[[{"rows":' + rows.to_json(orient="values") + "}]]}")
