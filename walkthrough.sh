#!/usr/bin/env bash
# Proves and builds the walkthrough, and runs it beside its sheets and samples.
set -eu
cd "$(dirname "$0")/crates/walkthrough"
rt check
# This run builds the program. It is not made beside the program's files, so it ends with an error of its own.
rt run >/dev/null 2>&1 || true
cd data
exec ../out/walkthrough
