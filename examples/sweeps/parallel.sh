#!/usr/bin/env bash
# Runs a sweep's jobs with GNU parallel, on this machine or on HOSTS that see the same files: a file of names for ssh,
# each with how many jobs it runs at once before it, as 16/rehearse1. A host that does not answer gets no jobs, and a job
# that fails is tried up to three times. A job whose file is there is not run again, so that it may be called again:
#   examples/sweeps/parallel.sh JOBS [HOSTS]
set -eu
if [ $# = 0 ]; then
  echo "usage: examples/sweeps/parallel.sh JOBS [HOSTS]" >&2
  exit 2
fi
# The shell of each job. Without this, parallel takes SHELL on a host; if that is not set, it runs nothing and reports 0.
export PARALLEL_SHELL=${PARALLEL_SHELL:-/bin/sh}
if [ $# = 1 ]; then exec parallel --retries 3 < "$1"; fi
# ssh gives up a host that hangs after 45 seconds, and parallel then gives its jobs to others
export PARALLEL_SSH=${PARALLEL_SSH:-ssh -o ServerAliveInterval=15 -o ServerAliveCountMax=3 -o ConnectTimeout=15}
# ask HOST: prints its line of HOSTS if it answers. parallel's own --filter-hosts drops hosts that need ten seconds. ssh
# and parallel would take a line that is no name for options and commands.
ask() {
  if [[ ! $1 =~ ^([0-9]+/)?(:|[A-Za-z0-9_][A-Za-z0-9_.:@%-]*)$ ]]; then
    printf 'parallel.sh: %q is no name of a host, so it gets no jobs\n' "$1" >&2
  elif [ "$1" = "${1%:}" ] && ! $PARALLEL_SSH "${1##*/}" true < /dev/null > /dev/null 2>&1; then
    echo "parallel.sh: ${1##*/} does not answer, so it gets no jobs" >&2
  else
    echo "$1"
  fi
}
answering=$(mktemp)
trap 'rm -f "$answering"' EXIT
while read -r host; do case $host in '' | '#'*) ;; *) ask "$host" & ;; esac; done < "$2" > "$answering"
wait
if [ ! -s "$answering" ]; then
  echo "parallel.sh: no host of $2 answers" >&2
  exit 1
fi
parallel --sshloginfile "$answering" --retries 3 < "$1"
