# shellcheck shell=sh disable=SC2154
# The package for npm, in an empty project without a network: a part of packaging/check.

if has javascript node npm; then
  inputs "$top/vectors"
  mkdir "$work/npm"
  echo '{ "private": true, "type": "module" }' > "$work/npm/package.json"
  (cd "$work/npm" && npm_config_cache=$work/cache npm install --offline --no-audit --no-fund "$archive") > "$work/log" 2>&1 ||
    lack "npm install: $(tail -n 1 "$work/log")"
  cp "$work/npm/node_modules/hunk-files/examples/symbols.js" "$work/npm"
  module "$work/npm/symbols.js"
fi
