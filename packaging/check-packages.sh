# shellcheck shell=sh disable=SC2154,SC2034
# The packages for Debian, of which root installs the one for this machine: a part of packaging/check.

# standing: every name in the folders that a package may put something in, but for what Python has compiled of others
standing() {
  find /usr /etc /var/lib/dpkg/info -xdev | grep -v -e '/__pycache__/[^h]' -e '/usr/local/' | sort
}
# tries_installed PACKAGE: puts it into this system, tries it from where it is then, and removes it
tries_installed() {
  standing > "$work/before"
  installed=1
  dpkg -i "$1" > "$work/log" 2>&1 || lack "dpkg -i: $(tail -n 1 "$work/log")"
  [ -z "$(dpkg --verify hunkinfo)" ] || lack "dpkg --verify: $(dpkg --verify hunkinfo)"
  [ "$(command -v hunkinfo)" = /usr/bin/hunkinfo ] || lack 'the program is not in the path'
  share=/usr/share/hunkinfo
  runs /usr/bin/hunkinfo
  compiles /usr/share/doc/hunkinfo/examples/c cc
  calls env
  cmakes /usr/share/doc/hunkinfo/examples/c/cmake
  surveys /usr/bin/hunk
  shares $share
  documents /usr/share/misc/magic.d/hunk /usr/share/man/man1/hunkinfo.1.gz /usr/share/man/man1/hunk.1.gz
  completes hunkinfo 'relocate
rewrite' /usr/share /usr/share/zsh/vendor-completions
  completes hunk 'relocate
relocs' /usr/share /usr/share/zsh/vendor-completions
  if has /usr/lib/python3 python3; then
    # Imported, so that Python keeps what it compiles.
    says 1 hunk.stream python3 -c 'import hunk.stream; print(1)'
    says '00001000 0 _m' symbols.py python3 /usr/share/doc/hunkinfo/examples/python/symbols.py "$work/symbol"
  fi
  rust $share/rust
  dpkg -r hunkinfo > "$work/log" 2>&1 || lack "dpkg -r: $(tail -n 1 "$work/log")"
  installed=
  standing > "$work/after"
  diff "$work/before" "$work/after" || lack 'dpkg -r leaves something'
  ! dpkg-query -W hunkinfo > "$work/log" 2>&1 || lack 'dpkg knows the package still'
  ! ldconfig -p | grep libhunk || lack 'the system finds libhunk still'
  pass
}

for machine in "$@"; do
  case $machine in
    windows | small | javascript) continue ;;
  esac
  of "$machine"
  package=$(echo "$made"/hunkinfo_*_"$architecture.deb")
  mkdir "$work/package"
  dpkg-deb -R "$package" "$work/package"
  (cd "$work/package" && md5sum -c --quiet DEBIAN/md5sums) || lack "$package: md5sums says something else"
  clean "$work/package"
  [ "$machine" = x86_64 ] || ! has "$package" "$emulator" || runs "$work/package/usr/bin/hunkinfo" "$emulator"
  rm -rf "$work/package"
  if has "$package" lintian; then
    lintian --allow-root "$package" > "$work/log" 2>&1 || lack "lintian: $(grep -m 1 '^E' "$work/log")"
    ! grep '^E' "$work/log" || lack "$package has errors"
    pass
  fi
done
package=$(echo "$made"/hunkinfo_*_amd64.deb)
if ! echo " $* " | grep -q ' x86_64 '; then
  :
elif [ "$(id -u)" != 0 ] || [ "$(dpkg --print-architecture)" != amd64 ]; then
  echo 'packaging/check: the package was not installed, which root does, on amd64'
elif dpkg-query -W hunkinfo > "$work/log" 2>&1; then
  echo 'packaging/check: the package was not installed, as one of its name is'
else
  tries_installed "$package"
fi
