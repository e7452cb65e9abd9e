#!/bin/sh
# Searches and a split that would take the product of two lengths, 2097152 and 1048576 bytes, if they went on from each place anew.
many() {
  head -c "$1" /dev/zero | tr '\0' a
}
for operator in has has_cs contains contains_cs; do
  echo "print \"$(many 2097152)\" $operator \"$(many 1048576)b\""
  echo
done
echo "print array_length(split(\"$(many 2097152)\", \"$(many 1048576)b\"))"
echo
for operator in has has_cs; do
  echo "print \"$(many 2097152)\" $operator \"$(many 1048576)\""
  echo
done
