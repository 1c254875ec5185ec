#!/bin/sh
# Each row of docs/PROVED.md names a function and clauses that stand in the file that it names. It needs python3, and runs no program.
set -eu
top=$(cd "$(dirname "$0")/.." && pwd)
PYTHONDONTWRITEBYTECODE=1 python3 "$top/tests/proved_rows.py" "$top"
