#!/usr/bin/env bash
# Installs what the Rust side and the Python side build with and is not here yet: Debian's packages,
# and nothing from elsewhere. Where all of it is here, it does nothing and needs no network.

set -u -o pipefail

packages=(
    gcc
    python3
    librust-clap-dev
    librust-clap-complete-dev
    librust-indicatif-dev
    librust-libc-dev
    librust-memmap2-dev
    librust-serde-json-dev
)

# missing: the packages that are not installed, a line each.
missing() {
    local name
    for name in "${packages[@]}"; do
        [[ $(dpkg-query -W -f '${db:Status-Status}' "$name" 2>/dev/null) == installed ]] || printf '%s\n' "$name"
    done
}

for command in rt cargo; do
    if ! command -v "$command" >/dev/null && [[ ! -x ${CARGO_HOME:-${HOME:-/}/.cargo}/bin/$command ]]; then
        printf 'make setup: %s is not installed, and no package has it: the README says what is wanted\n' "$command" >&2
        exit 1
    fi
done

if ! command -v dpkg-query >/dev/null; then
    printf 'make setup: this is no Debian system: install by hand what scripts/setup.sh lists\n' >&2
    exit 1
fi

mapfile -t wanted < <(missing)
((${#wanted[@]})) || exit 0

as_root=()
if ((EUID != 0)); then
    as_root=(sudo)
    if ! command -v sudo >/dev/null; then
        printf 'make setup: to be installed by root: %s\n' "${wanted[*]}" >&2
        exit 1
    fi
fi

printf 'installing %s\n' "${wanted[*]}" >&2
{
    "${as_root[@]}" apt-get update -q &&
        "${as_root[@]}" env DEBIAN_FRONTEND=noninteractive \
            apt-get install -q -y --no-install-recommends "${wanted[@]}"
} >&2

mapfile -t wanted < <(missing)
if ((${#wanted[@]})); then
    printf 'make setup: could not be installed: %s\n' "${wanted[*]}" >&2
    exit 1
fi
