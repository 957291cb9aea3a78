#!/usr/bin/env bash
# release.sh VERSION: makes dist/, with all that a release has, of what was proved in this clone: the archive, the packages for
# Debian, the wheel, the crate, PROVENANCE and SHA256SUMS. The same commit gives the same bytes. docs/RELEASING.md says more.
set -euo pipefail
umask 022
exec python3 "$(dirname "${BASH_SOURCE[0]}")/release/make.py" "$@"
