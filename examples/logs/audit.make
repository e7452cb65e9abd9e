#!/usr/bin/env bash
# Loads audit.jsonl behind an update policy, and asks the questions of audit.questions. Some numbers of the log have a fraction.
set -eu
cd "$(dirname "$0")"
load="../../tools/load audit.jsonl --into Audit --on number=string"
$load --print-schema
echo
cat audit.tables
echo
$load --no-table
cat audit.questions
