#!/bin/sh
# Measures the program beside libbson and Python's bson on documents of 1 MB and 15 MB, and alone on one of 20000 keys.
# Needs Debian's gcc, libbson-dev, python3-bson and time.
set -e
cd "$(dirname -- "$(readlink -f -- "$0")")"
rounds=${1:-15}
../../prove
program=../../crates/bson_store_cli/out/bson_store_cli
mkdir -p out
$program < ../../samples/hello.bson > out/hello.bson
cmp out/hello.bson ../../samples/hello.bson
# shellcheck disable=SC2046
gcc -O2 -o out/libbson libbson.c $(pkg-config --cflags --libs libbson-1.0)
/usr/bin/python3 documents.py tree 1000000 > out/1MB.bson
/usr/bin/python3 documents.py tree 15000000 > out/15MB.bson
/usr/bin/python3 documents.py keys 20000 > out/keys.bson
for name in 1MB 15MB keys; do
    $program < out/$name.bson | cmp - out/$name.bson
    out/libbson < out/$name.bson | cmp - out/$name.bson
    /usr/bin/python3 python_bson.py < out/$name.bson | cmp - out/$name.bson
done
lscpu | grep -E '^(Model name|CPU\(s\)):'
/usr/bin/python3 measure.py "$rounds" bson_store=$program libbson=out/libbson "python=/usr/bin/python3 python_bson.py" \
    -- out/1MB.bson out/15MB.bson
/usr/bin/python3 measure.py 3 bson_store=$program libbson=out/libbson "python=/usr/bin/python3 python_bson.py" -- out/keys.bson
