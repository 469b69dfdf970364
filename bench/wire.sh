#!/usr/bin/env bash
# What it takes to store keys over a socket and to read them all back: `serve` as one process and `push` as another, with
# 30,000 keys (or KEYS) in fragments of 1, 30 and 300 keys. A line has the keys of a fragment, the program, and the
# seconds of the clock, the least of three runs; `!` says that it printed another export than the first program.
#
# Usage, at the top of the repository: bench/wire.sh [PROGRAM], where PROGRAM is the proved program if none is named.
# CUEBASE=PATH names a second program that has the same words. Where redis and etcd are installed, the same keys are
# stored there too, and read back. It wants Linux, bash and awk.
set -eu
programs=("${1:-crates/cuestore/out/cuestore}" ${CUEBASE:+"$CUEBASE"})
keys=${KEYS:-30000}
work=$(mktemp -d)
pids=()
finish() {
  for pid in "${pids[@]}"; do kill "$pid" 2> /dev/null || true; done
  rm -rf "$work"
}
trap finish EXIT

# Whether a socket listens on this port of 127.0.0.1.
listens() { grep -q " 0100007F:$(printf %04X "$1") 00000000:0000 0A " /proc/net/tcp; }

wait_for() {
  local _
  for _ in $(seq 300); do
    if listens "$1"; then return 0; fi
    sleep 0.02
  done
  echo "nothing listens on port $1" >&2
  exit 1
}

# Fragments of so many keys, with lines `---` between them.
fragments() {
  awk -v keys="$keys" -v each="$1" 'BEGIN {
    for (k = 0; k < keys; k++) {
      if (k > 0 && k % each == 0) print "---"
      printf "key%05d: %d\n", k, k
    }
  }'
}

port=$((20000 + RANDOM % 10000))

# Seconds of a push to a server of its own.
pushed() {
  local program=$1 input=$2 begun ended
  port=$((port + 1))
  "$program" serve "$port" 1 > "$work/served" &
  wait_for "$port"
  begun=$(date +%s.%N)
  "$program" push "$port" < "$input" > "$work/pushed"
  ended=$(date +%s.%N)
  wait $!
  cmp -s "$work/served" "$work/pushed" || echo "push and serve print different exports" >&2
  awk -v a="$begun" -v b="$ended" 'BEGIN { printf "%.3f\n", b - a }'
}

for each in 1 30 300; do
  fragments "$each" > "$work/input"
  first=
  for program in "${programs[@]}"; do
    least=$(for _ in 1 2 3; do pushed "$program" "$work/input"; done | sort -n | head -1)
    if [ -z "$first" ]; then
      first=$program
      cp "$work/pushed" "$work/first"
    elif ! cmp -s "$work/pushed" "$work/first"; then
      least="$least !"
    fi
    echo "$each keys a fragment: $(basename "$program") $least s"
  done
done

if command -v redis-server > /dev/null && command -v redis-cli > /dev/null; then
  port=$((port + 1))
  redis-server --port "$port" --bind 127.0.0.1 --save '' --appendonly no --dir "$work" > "$work/redis" &
  pids+=($!)
  wait_for "$port"
  awk -v keys="$keys" 'BEGIN { for (k = 0; k < keys; k++) printf "SET key%05d %d\n", k, k }' > "$work/input"
  begun=$(date +%s.%N)
  redis-cli -p "$port" --pipe < "$work/input" > "$work/pushed"
  redis-cli -p "$port" MGET $(awk -v keys="$keys" 'BEGIN { for (k = 0; k < keys; k++) printf "key%05d ", k }') > "$work/pushed"
  ended=$(date +%s.%N)
  awk -v a="$begun" -v b="$ended" 'BEGIN { printf "1 key a request, none awaited: redis %.3f s\n", b - a }'
fi

if command -v etcd > /dev/null && command -v etcdctl > /dev/null; then
  port=$((port + 2))
  etcd --data-dir "$work/etcd" --listen-client-urls "http://127.0.0.1:$port" --advertise-client-urls "http://127.0.0.1:$port" \
    --listen-peer-urls "http://127.0.0.1:$((port + 1))" --log-level error > "$work/log" 2>&1 &
  pids+=($!)
  wait_for "$port"
  # A transaction of etcd has at most 128 puts.
  awk -v keys="$keys" -v work="$work" 'BEGIN {
    for (k = 0; k < keys; k++) {
      if (k % 100 == 0) { file = sprintf("%s/txn%04d", work, k / 100); print "" > file }
      printf "put key%05d %d\n", k, k > file
      if (k % 100 == 99 || k == keys - 1) { print "\n" > file; close(file) }
    }
  }'
  begun=$(date +%s.%N)
  for file in "$work"/txn*; do ETCDCTL_API=3 etcdctl --endpoints "127.0.0.1:$port" txn < "$file" > "$work/pushed"; done
  ETCDCTL_API=3 etcdctl --endpoints "127.0.0.1:$port" get key --prefix > "$work/pushed"
  ended=$(date +%s.%N)
  awk -v a="$begun" -v b="$ended" 'BEGIN { printf "100 keys a transaction: etcd %.3f s\n", b - a }'
fi
