#!/usr/bin/env bash
# Runs a share of a sweep's jobs: of the commands in the file JOBS every OF-th one from line NUMBER on, as many at once as
# there are processors, or as PROCESSORS says:
#   examples/sweeps/share.sh JOBS NUMBER OF
set -eu -o pipefail
if [[ $# != 3 || ! $2 =~ ^[0-9]+$ || ! $3 =~ ^[1-9][0-9]*$ ]]; then
  echo "usage: examples/sweeps/share.sh JOBS NUMBER OF" >&2
  exit 2
fi
awk -v number="$2" -v of="$3" '(NR - number) % of == 0' < "$1" \
  | tr '\n' '\0' | xargs -0 -r -n 1 -P "${PROCESSORS:-$(nproc)}" sh -c 'sh -c "$0" || exit 1'
