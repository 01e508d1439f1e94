#!/bin/sh
# Installs st80 from the folder of its unpacked archive, or takes it away again.
#
#   ./install.sh [PREFIX]                  PREFIX is /usr/local where it is left out
#   ./install.sh --uninstall [PREFIX]
#
# The program becomes PREFIX/bin/st80, its man page PREFIX/share/man/man1/st80.1, and its completion for bash
# PREFIX/share/bash-completion/completions/st80. Documents, licence and examples go below PREFIX/share/doc/st80, with files.txt, which names
# all these files and the folders that were made for them. Where DESTDIR is set, it stands before PREFIX.
#
# Each file is written beside its place; where all are, each is renamed to it. What fails before that leaves all as it was. Files of an
# older installation that this one hasn't are removed. --uninstall removes the files that the archive or files.txt names, and the folders
# that were made for them, where they are empty. PREFIX itself stays, and so does all else.
set -eu
export LC_ALL=C
umask 022
list=share/doc/st80/files.txt
line_feed='
'
# Folders that were made, the last one first.
made=""

fail() {
  printf 'install.sh: %s\n' "$*" >&2
  exit 1
}

usage() {
  fail "usage: ./install.sh [--uninstall] [PREFIX]"
}

# The file of the archive that is installed as $1.
source_of() {
  case $1 in
    bin/st80) source=$here/st80 ;;
    share/man/man1/st80.1) source=$here/st80.1 ;;
    share/bash-completion/completions/st80) source=$here/st80.bash ;;
    share/doc/st80/*) source=$here/${1#share/doc/st80/} ;;
    *) fail "$here/files.txt has a line that names no file of the archive: $1" ;;
  esac
}

# Where the file that becomes $1 is written.
beside_of() {
  beside=$root/${1%/*}/.${1##*/}.st80-new
}

# Lines of lists without those that no installation has, so that none leads elsewhere.
known() {
  grep -v '\.\.' | grep -x -e bin/ -e bin/st80 -e share/ -e share/doc/ -e 'share/doc/st80/.*' \
    -e share/man/ -e share/man/man1/ -e 'share/man/man1/st80\.1' \
    -e share/bash-completion/ -e share/bash-completion/completions/ -e share/bash-completion/completions/st80 || :
}

# The lines of the list of what is installed, if there is one.
installed() {
  [ ! -f "$root/$list" ] || known <"$root/$list"
}

make_folder() {
  [ ! -d "$1/" ] || return 0
  make_folder "${1%/*}"
  mkdir -- "$1" || fail "no folder $1 can be made: $advice"
  made=$1$line_feed$made
}

# Leaves things as they were where not all files could be written.
undo() {
  while IFS= read -r path; do
    beside_of "$path"
    rm -f -- "$beside" || :
  done <<END
$files
$list
END
  printf '%s' "$made" | while IFS= read -r folder; do
    rmdir -- "$folder" 2>/dev/null || :
  done
}

# Writes standard input beside $1, with the mode $2.
write_beside() {
  [ ! -d "$root/$1" ] || fail "$root/$1 is a folder"
  make_folder "$root/${1%/*}"
  [ -w "$root/${1%/*}" ] || fail "$root/${1%/*} can't be written: $advice"
  beside_of "$1"
  rm -f -- "$beside"
  # With -C a file that somebody else makes there isn't written.
  { (set -C && cat >"$beside") && chmod "$2" "$beside"; } || fail "$beside can't be written"
}

# Removes the files of these lines, and the folders of these lines and below share/doc/st80, each where it is empty; tells how many files
# there were.
remove() {
  count=0
  while IFS= read -r path; do
    case $path in
      "") ;;
      */) rmdir -- "$root/$path" 2>/dev/null || : ;;
      *)
        [ ! -e "$root/$path" ] && [ ! -h "$root/$path" ] || count=$((count + 1))
        beside_of "$path"
        rm -f -- "$root/$path" "$beside" || fail "$root/$path can't be removed"
        ;;
    esac
  done <<END
$(printf '%s\n' "$1" | sed -e p -e 's,^\(share/doc/st80.*\)/[^/]*$,\1/,' | sort -ru)
END
}

install_all() {
  [ -s "$here/files.txt" ] || fail "$here/files.txt is missing: unpack the archive anew"
  files=$(sed '/\/$/d' "$here/files.txt")
  # With the list itself.
  total=1
  while IFS= read -r path; do
    source_of "$path"
    { [ -f "$source" ] && [ -r "$source" ]; } || fail "$source is missing: unpack the archive anew"
    total=$((total + 1))
  done <<END
$files
END

  trap undo EXIT
  trap 'exit 1' HUP INT TERM
  make_folder "$root"
  case $root/ in
    */./* | */../* | *//*)
      root=$(cd -P -- "$root/" && pwd -P)
      root=${root%/}
      [ -n "$destination" ] || prefix=$root
      ;;
  esac
  while IFS= read -r path; do
    source_of "$path"
    mode=644
    [ "$path" != bin/st80 ] || mode=755
    write_beside "$path" "$mode" <"$source"
  done <<END
$files
END
  older=$(installed)
  folders=$(printf '%s' "$made" | while IFS= read -r folder; do
    case $folder in "$root"/*) printf '%s/\n' "${folder#"$root"/}" ;; esac
  done)
  printf '%s\n' "$files" "$(printf '%s\n' "$folders" "$older" | sed -n '/\/$/p' | sort -u)" | sed '/^$/d' | write_beside "$list" 644

  trap '' HUP INT TERM
  while IFS= read -r path; do
    beside_of "$path"
    mv -f -- "$beside" "$root/$path"
  done <<END
$files
END
  remove "$(printf '%s\n' "$older" | while IFS= read -r path; do
    case $path in */) continue ;; esac
    case $line_feed$files$line_feed in *"$line_feed$path$line_feed"*) ;; *) printf '%s\n' "$path" ;; esac
  done)"
  beside_of "$list"
  mv -f -- "$beside" "$root/$list"
  trap - EXIT

  physical=$(cd -P -- "$root/bin" && pwd -P)
  hint="; add to your shell's profile: export PATH=\"$prefix/bin:\$PATH\" MANPATH=\"$prefix/share/man:\${MANPATH-}\""
  case :${PATH-}: in *:"$prefix/bin":* | *:"$prefix/bin/":* | *:"$physical":*) hint="" ;; esac
  printf '%s\n' "installed st80, its man page, completion, documents and examples in ${root:-/}: $total files$hint"
}

uninstall_all() {
  remove "$( (
    [ ! -f "$here/files.txt" ] || sed '/\/$/d' "$here/files.txt" | known
    installed
    printf '%s\n' "$list"
  ))"
  [ "$count" -gt 0 ] || fail "no file of st80 is in ${root:-/}"
  printf '%s\n' "removed $count files of st80 from ${root:-/}"
}

script=$(readlink -f -- "$0") || fail "there is no $0"
here=${script%/*}
task=install_all
case ${1-} in
  --help) sed -n '2,/^set/s/^# \{0,1\}//p' "$script" && exit ;;
  --uninstall) task=uninstall_all && shift ;;
esac
[ $# -le 1 ] || usage
prefix=${1-/usr/local} destination=${DESTDIR-}
case $prefix in
  "") fail "PREFIX is empty" ;;
  -*) usage ;;
  /*) ;;
  *) prefix=$PWD/$prefix ;;
esac
case $destination in
  "" | /*) ;;
  *) destination=$PWD/$destination ;;
esac
while [ "$prefix" != "${prefix%/}" ]; do prefix=${prefix%/}; done
while [ "$destination" != "${destination%/}" ]; do destination=${destination%/}; done
root=$destination$prefix
advice="try as root, or name a PREFIX that you may write"
"$task"
