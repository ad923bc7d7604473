#!/usr/bin/env bash
# Each row of docs/PROMISES.md names a public function, by its type or trait, and a clause: both must stand in the sources.
cd "$(dirname "$0")/.." && exec python3 tools/check_promises.py
