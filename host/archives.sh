#!/usr/bin/env bash
# Makes the archives that host/ links, target/staticlib/libsolver.a and libjudge.a, of the static libraries solver_c and judge_c.
set -euo pipefail
cd "$(dirname "$0")/.."
mkdir -p target/staticlib
for library in solver judge; do
    (cd "crates/${library}_c" && rt lib)
    cp "crates/${library}_c/out/lib${library}_c.a" "target/staticlib/lib${library}.a"
done
