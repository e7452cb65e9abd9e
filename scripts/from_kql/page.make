#!/usr/bin/env bash
# The commands of docs/FROM_KQL.md.
exec "$(dirname "$0")/../../.ci/from_kql"
