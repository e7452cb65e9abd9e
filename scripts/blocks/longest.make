#!/usr/bin/env bash
# Commands of 16777216 bytes, the most that a command may have, and one of a byte more between them.
padded() {
  printf '%s' "$1"
  head -c $(($2 - ${#1})) /dev/zero | tr '\0' ' '
  printf '\n\n'
}
padded '.create table A (k:long)' 16777216
padded '.create table B (k:long)' 16777217
padded 'print 1' 16777216
