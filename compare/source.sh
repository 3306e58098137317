# Sourced by run and definitions, in compare/: sets `source_flags` for cargo. The crates come from the folder LUBIKSAN_VENDOR or ../shared/vendor where
# that is there, else from the registry. Where cargo is missing, or neither source can be reached, the comparison is skipped.

# Says what is missing and ends the script with 0; with 1 where CI is set: there nothing may be skipped.
skipped() {
  echo "compare: $1, the comparison was skipped"
  if [ -n "${CI:-}" ]; then
    exit 1
  fi
  exit 0
}

source_flags=()
if ! command -v cargo >/dev/null; then
  skipped "cargo is not installed"
fi
vendor=${LUBIKSAN_VENDOR:-../../shared/vendor}
if [ -d "$vendor" ]; then
  vendor=$(cd "$vendor" && pwd)
  source_flags=(--offline
    --config 'source.crates-io.replace-with="vendored"'
    --config "source.vendored.directory=\"$vendor\"")
elif ! CARGO_NET_RETRY=0 CARGO_HTTP_TIMEOUT=20 timeout 120 cargo fetch --quiet 2>/dev/null; then
  skipped "there is no ../shared/vendor and the registry can't be reached"
fi
