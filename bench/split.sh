#!/usr/bin/env bash
# Times the log checker just below and above the length at which it splits a log among threads; on free processors.
set -eu
"$("$(dirname "$0")"/throwaway.sh split.rattle)"
