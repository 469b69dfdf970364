#!/usr/bin/env bash
# How many small fragments a second cuestored takes over 32 connections, how often it tells its unchanged export, and what
# memory it has then. It wants wrk and the proved program, or CUESTORED=PROGRAM.
#
# usage: bench/service.sh [SECONDS]
set -euo pipefail
seconds=${1:-10}
top=$(cd "$(dirname "${BASH_SOURCE[0]}")/.." && pwd)
program=$(readlink -f "${CUESTORED:-$top/crates/cuestored/out/cuestored}")
folder=$(mktemp -d)
"$program" --data "$folder/data" --listen 127.0.0.1:8427 2> "$folder/log" &
server=$!
end() { kill -9 "$server"; wait "$server" 2> /dev/null || true; }
trap 'end; rm -rf "$folder"' EXIT
cat > "$folder/post.lua" << 'END'
local thread_number = 0
function setup(thread) thread:set("mine", thread_number); thread_number = thread_number + 1 end
function init(words) number, turn = 0, words[1] end
function request()
  number = number + 1
  return wrk.format("POST", "/fragments", {["Content-Type"] = "text/plain"}, string.format("k%s_%d_%d: %d", turn, mine, number, number))
end
function done(summary) io.write(string.format("%d not acknowledged\n", summary.errors.status)) end
END
memory() { awk '/^VmRSS|^VmHWM/ {printf "%s %d kB  ", $1, $2} END {print ""}' "/proc/$server/status"; }
until curl -fs http://127.0.0.1:8427/healthz > /dev/null; do sleep 0.1; done
echo "at rest: $(memory)"
for connections in 1 32; do
  echo "== fragments over $connections connections"
  wrk -t 1 -c "$connections" -d "$seconds" --latency -s "$folder/post.lua" http://127.0.0.1:8427 -- "$connections" |
    grep -E 'Requests/sec|50%|99%|acknowledged'
done
echo "== the export of $(curl -s http://127.0.0.1:8427/metrics | awk '/^cuestored_rows/ {print $2}') rows, $(curl -s http://127.0.0.1:8427/export | wc -c) bytes, unchanged, over 32 connections"
wrk -t 2 -c 32 -d "$seconds" --latency http://127.0.0.1:8427/export | grep -E 'Requests/sec|Transfer|50%|99%'
tag=$(curl -sI http://127.0.0.1:8427/export | sed -n 's/^etag: //Ip' | tr -d '\r')
echo "== with its tag (304)"
wrk -t 2 -c 32 -d "$seconds" --latency -H "If-None-Match: $tag" http://127.0.0.1:8427/export | grep -E 'Requests/sec|50%|99%'
echo "then: $(memory)"
