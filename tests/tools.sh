#!/usr/bin/env bash
# Installs with apt-get what the tests from Rust and C need and this machine lacks, and says so. Fails where there is no Rust
# compiler in the end; what else is missing fails the tests that need it.
set -u

# lacking PACKAGE..: whether one of them is not installed.
lacking() {
    ! dpkg -s "$@" >/dev/null 2>&1
}

# install PACKAGE..: brings them, or says that they cannot be had. What there is to be had is asked for once.
install() {
    echo "installing with apt-get: $*"
    [ -n "$updated" ] || apt-get update -qq >/dev/null 2>&1
    updated=yes
    DEBIAN_FRONTEND=noninteractive apt-get install -y -qq --no-install-recommends "$@" >/dev/null 2>&1 ||
        echo "these packages cannot be had: $*"
}

# bring COMMAND PACKAGE..: the packages, where the command is not there.
bring() {
    local command=$1
    shift
    command -v "$command" >/dev/null || install "$@"
}

updated=
bring rustc rustc
bring pkg-config pkg-config
bring mandoc mandoc
bring cc gcc libc6-dev
bring c++ g++
# valgrind does not start without the names in the C library
! lacking valgrind libc6-dbg || install valgrind libc6-dbg
# libFuzzer is in the runtime of clang, whose package has the version in its name.
bring clang clang
if command -v clang >/dev/null; then
    runtime=libclang-rt-$(clang -dumpversion | cut -d. -f1)-dev
    ! lacking "$runtime" || install "$runtime"
fi
command -v rustc >/dev/null || { echo "there is no Rust compiler, and none can be installed"; exit 1; }
