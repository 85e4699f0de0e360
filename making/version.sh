#!/usr/bin/env bash
# Prints the version of the calls for C, major and minor, from the header.
cd "$(dirname "$0")/.." || exit 2
sed -n 's/^#define HOUSE_VERSION_\(MAJOR\|MINOR\) *\([0-9]*\).*/\2/p' include/house.h | paste -sd .
