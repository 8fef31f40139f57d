#!/bin/sh
# What the tests call and this repository hasn't, from Debian's packages: says in a line what isn't here, and then ends with status 1.
#
#     tests/needs.sh              only says it
#     tests/needs.sh --install    installs what isn't here first, as root or by sudo, and says that it does on standard error
set -u

# The packages that aren't here. Behind each one is a command that succeeds if it is.
find_missing() {
    while read -r package test; do
        sh -c "$test" >/dev/null 2>&1 </dev/null || printf ' %s' "$package"
    done <<'END'
python3 test -x /usr/bin/python3
git command -v git
sqlite3 command -v sqlite3
jq command -v jq
strace command -v strace
python3-pymongo /usr/bin/python3 -c 'import bson.json_util'
python3-mongomock /usr/bin/python3 -c 'import mongomock'
python3-mongoengine /usr/bin/python3 -c 'import mongoengine'
python3-apscheduler /usr/bin/python3 -c 'import apscheduler.jobstores.mongodb'
python3-requests-cache /usr/bin/python3 -c 'import requests_cache.backends.mongodb'
golang-mongodb-mongo-driver-dev test -d /usr/share/gocode/src/go.mongodb.org/mongo-driver/data/crud
gcc command -v gcc
pkg-config command -v pkg-config
libmongoc-dev pkg-config libmongoc-1.0
nodejs command -v node
node-mongodb NODE_PATH=/usr/share/nodejs:/usr/lib/nodejs node -e 'require("mongodb")'
python3-venv /usr/bin/python3 -c 'import ensurepip, venv'
lintian command -v lintian
mandoc command -v mandoc
zsh command -v zsh
fish command -v fish
END
}

# The command that installs packages, as whoever calls it has to write it; nobody is asked for a word where there is no terminal.
install="apt-get install"
by=
if [ "$(id -u 2>/dev/null)" != 0 ] && command -v sudo >/dev/null; then by=sudo install="sudo apt-get install"; fi

missing=$(find_missing)
if [ -n "$missing" ] && [ "${1-}" = --install ] && command -v apt-get >/dev/null; then
    echo "installing$missing, which takes some minutes" >&2
    log=$(mktemp)
    # shellcheck disable=SC2086
    {
        $by timeout 300 apt-get update -qq &&
            $by env DEBIAN_FRONTEND=noninteractive timeout 1200 apt-get install -y -qq --no-install-recommends $missing
    } </dev/null >"$log" 2>&1 || tail -n 5 "$log" >&2
    rm -f "$log"
    missing=$(find_missing)
fi
[ -z "$missing" ] || { echo "these packages aren't here: $install$missing"; exit 1; }
