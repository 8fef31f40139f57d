#!/bin/sh
# Measures the program's commands on a file beside C over libbson and SQLite and Python's bson and sqlite3.
# Needs Debian's gcc, pkg-config, libbson-dev, libsqlite3-dev and python3-pymongo, and the proved program (./prove).
set -e
cd "$(dirname -- "$(readlink -f -- "$0")")"
rounds=${1:-3}
program=../../crates/bson_store_cli/out/bson_store_cli
mkdir -p out
# shellcheck disable=SC2046
gcc -O2 -o out/baseline baseline.c $(pkg-config --cflags --libs libbson-1.0) -lsqlite3
/usr/bin/python3 documents.py orders 2000 > out/orders2000.bson
/usr/bin/python3 documents.py orders 20000 > out/orders20000.bson
/usr/bin/python3 documents.py mixed 20000 > out/mixed20000.bson
/usr/bin/python3 documents.py small 20000 > out/small20000.bson
/usr/bin/python3 documents.py small 200000 > out/small200000.bson
lscpu | grep -E '^(Model name|CPU\(s\)):'
/usr/bin/python3 measure.py out "$rounds" bson_store=$program c=out/baseline "python=/usr/bin/python3 baseline.py" \
    -- out/orders2000.bson out/orders20000.bson out/mixed20000.bson out/small20000.bson out/small200000.bson
