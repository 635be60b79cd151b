#!/usr/bin/env bash
# Times the log checker on a log of 20,000 lines over 1,000,000 binary clauses.
set -eu
"$("$(dirname "$0")"/throwaway.sh newness.rattle)"
