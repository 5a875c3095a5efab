# shellcheck shell=sh disable=SC2154
# The wheels, each with the library for a machine inside: a part of packaging/check.

# wheel_here WHEEL EXAMPLES: installs it for the Python of this machine, in an empty environment without a network
wheel_here() {
  has "$1" python3 || return 0
  python3 -m venv "$work/venv" > "$work/log" 2>&1 || {
    echo "packaging/check: $1 was not tried, as Python has no module venv with pip (Debian's python3-venv)"
    return
  }
  "$work/venv/bin/pip" -q --isolated --disable-pip-version-check install --no-index "$1" > "$work/log" 2>&1 ||
    lack "pip install: $(tail -n 1 "$work/log")"
  says '00001000 0 _m' "$1" "$work/venv/bin/python" "$2/symbols.py" "$work/symbol"
  surveys "$work/venv/bin/hunk"
}
# wheel_there WHEEL EMULATOR WORD..: has the examples in C, which are compiled for that machine, call the library in it
wheel_there() {
  has "$1" python3 || return 0
  rm -rf "$work/wheel"
  python3 -m zipfile -e "$1" "$work/wheel"
  shift
  calls "$@" -E "LD_LIBRARY_PATH=$work/wheel/hunk"
}
