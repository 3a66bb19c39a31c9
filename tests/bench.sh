#!/bin/sh
# Prints the tables of docs/PERFORMANCE.md. SQLite and PostgreSQL take part where they are installed: apt-get install sqlite3 postgresql.
# A PostgreSQL server of its own runs meanwhile, without a port; as root it's run by the user nobody.
set -eu
cd "$(dirname "$0")/.."
export CARGO_TARGET_DIR="$PWD/target/cargo"
(cd crates/flowpewter && rt lib --cpu=x86-64) >/dev/null

# as COMMAND: runs what root mustn't
as() {
    if [ "$(id -u)" -eq 0 ]; then runuser -u nobody -- "$@"; else "$@"; fi
}

server=$(ls -d /usr/lib/postgresql/*/bin 2>/dev/null | tail -n 1)
if [ -n "$server" ]; then
    data=$(mktemp -d)
    if [ "$(id -u)" -eq 0 ]; then chown nobody "$data"; fi
    as "$server/initdb" -D "$data/data" -U bench -A trust >/dev/null
    as "$server/pg_ctl" -D "$data/data" -l "$data/log" -o "-k $data -c listen_addresses=''" -w start >/dev/null
    trap 'as "$server/pg_ctl" -D "$data/data" -m fast -w stop >/dev/null; rm -r "$data"' EXIT
    export PGHOST="$data" PGUSER=bench PGDATABASE=postgres
fi
cargo run --offline --release --quiet --manifest-path rust/Cargo.toml --bin bench
