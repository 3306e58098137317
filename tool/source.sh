# Sourced by the scripts of this folder: sets `source_flags` for cargo. The crates come from ../../shared/vendor (or the folder that LUBIKSAN_VENDOR
# names) where that is there, else from the registry.
source_flags=()
vendor=${LUBIKSAN_VENDOR:-$tool/../../shared/vendor}
if [ -d "$vendor" ]; then
  vendor=$(cd "$vendor" && pwd)
  source_flags=(--offline
    --config 'source.crates-io.replace-with="vendored"'
    --config "source.vendored.directory=\"$vendor\"")
fi
