#!/usr/bin/env bash
# Holds each wrong version of crates/*/must-fail to the place where it must be refused: test/refused.py says how, and what it takes.
exec python3 "$(dirname "$0")/refused.py" "$@"
