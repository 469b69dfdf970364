#!/bin/sh
# Makes a ConfigMap of Kubernetes from fragments: nothing is applied unless the export is whole.
#
# usage: configmap.sh NAME FILE..     for example: ./configmap.sh web limits.cue web.cue | kubectl apply -f -
set -eu
name=$1
shift
json=$(cuestore export "$@")
printf 'apiVersion: v1\nkind: ConfigMap\nmetadata:\n  name: %s\ndata:\n  config.json: |\n' "$name"
printf '%s\n' "$json" | sed 's/^/    /'
