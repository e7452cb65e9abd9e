#!/usr/bin/env bash
# Loads access.log, and asks the questions of access.questions.
set -eu
cd "$(dirname "$0")"
../../tools/load access.log --into Access
cat access.questions
