#!/bin/sh
# Puts the programs, their manual pages, the editors' files and the grammars of this folder under ~/.local, or PREFIX: ./install [--uninstall] [PREFIX].
#
# It needs a POSIX shell and the usual commands alone. All files are first laid beside their places and then moved there, so what fails
# before changes nothing. A list of the files, and of the folders that were made for them, lies beside them (share/abnf_ls/installed): by
# it a second install knows what is its own, and an uninstall what to take away. What isn't in the list is neither overwritten nor taken
# away. The install of the repository keeps the same list, so each of them knows what the other has put in place.
set -euf
LC_ALL=C
export LC_ALL
unset CDPATH
line_end='
'
list=share/abnf_ls/installed
not_put='nothing was put in place'
# What the call that fails says; which folders are made, the last one first; which files are laid beside their places; which are in place.
fault='' made='' laid='' there=''

say() { printf 'install: %s\n' "$1" >&2; }
stop() { # STATUS LINE
  say "$2"
  exit "$1"
}
usage() { stop 5 'usage: ./install [--uninstall] [PREFIX]'; }

# ---- the files, and the list of those that are put in place

places() { # of all files under the prefix, none of which has a blank in its path
  (cd "$here" && find abnf_ls abnf_findings man editors grammars -type f) |
    sed -e 's#^man/#share/man/man1/#' -e 's#^editors/#share/abnf_ls/&#' -e 's#^grammars/#share/abnf_ls/&#' -e 's#^abnf_#bin/&#' | sort
}
listed() { # KIND: the lines of the list of a file or a folder
  [ ! -f "$prefix/$list" ] || grep "^$1 " "$prefix/$list" || :
}
check_list() {
  wrong=$(grep -vE '^(file|folder) [^/]' "$prefix/$list" || :; grep -E '^file (.*/)?\.\.(/|$)' "$prefix/$list" || :)
  [ -z "$wrong" ] || stop 1 "$prefix/$list has a line that no install writes: ${wrong%%"$line_end"*}"
}
refuse_others() { # PLACE: ends where something stands in the way that no install has put there
  [ ! -d "$prefix/$1" ] || [ -L "$prefix/$1" ] || stop 1 "$prefix/$1 is a folder; $not_put"
  [ -e "$prefix/$1" ] || [ -L "$prefix/$1" ] || return 0
  [ "$1" = "$list" ] || listed file | grep -qxF "file $1" ||
    stop 1 "$prefix/$1 is there already, and not by an install; $not_put"
}

# ---- what is laid beside its place and moved there

from_prefix() { # FOLDER: the prefix, or a folder below or above it, as the list has it
  case $1 in
    "$prefix") echo . ;;
    "$prefix"/*) printf '%s\n' "${1#"$prefix"/}" ;;
    *) printf '%s\n' "${prefix#"$1"/}" | sed 's#[^/][^/]*#..#g' ;;
  esac
}
make_folder() { # FOLDER: makes it and those above it where they aren't there
  [ -n "$1" ] && [ ! -d "$1" ] || return 0
  make_folder "${1%/*}"
  fault="$1: Not a directory"
  [ ! -e "$1" ] || exit 1
  fault="$1: cannot be made"
  mkdir "$1"
  made=$1$line_end$made
}
beside() { printf '%s\n' "$prefix/${1%/*}/.abnf_ls.new.${1##*/}"; }
begin() { # PLACE: lays an empty file beside it
  make_folder "$prefix/${1%/*}"
  fault="$prefix/$1: cannot be written"
  new=$(beside "$1")
  laid=$1$line_end$laid
  rm -f "$new"
  : >"$new"
}
lay() { # PLACE
  begin "$1"
  case $1 in
    bin/*) cat "$here/${1#bin/}" >"$new" ;;
    share/man/*) cat "$here/man/${1##*/}" >"$new" ;;
    *) sed "s#/path/to/abnf_ls/out#$in_snippets#g" "$here/${1#share/abnf_ls/}" >"$new" ;;
  esac
  case $1 in
    bin/*) chmod 755 "$new" ;;
    *) chmod 644 "$new" ;;
  esac
}
lay_list() { # LINES: of its files; with the folders that were listed, or are made now
  begin "$list"
  {
    printf '%s\n' "$1"
    listed folder
    printf %s "$made" | while IFS= read -r it; do echo "folder $(from_prefix "$it")"; done
  } | sed '/^$/d' | sort -u >"$new"
  chmod 644 "$new"
}
move() { # PLACE
  fault="$prefix/$1: cannot be moved in place"
  mv -f "$(beside "$1")" "$prefix/$1"
  there=${there:+$there, }$1
}
clean() { # takes away what isn't moved in place, and the folders that were made for it
  status=$?
  trap - EXIT
  if [ "$status" -ne 0 ]; then
    printf %s "$laid" | while IFS= read -r it; do rm -f "$(beside "$it")"; done
    printf %s "$made" | while IFS= read -r it; do rmdir "$it" 2>/dev/null || :; done
    say "stopped; in place under $prefix by now: ${there:-nothing new}"
    say "$fault"
  fi
  exit "$status"
}

put() {
  here=$(cd "$(dirname "$0")" && pwd)
  # (the path as the inside of a string of JSON, TOML, Lua, JavaScript, Emacs Lisp and Vim script, and then as what sed puts there)
  in_snippets=$(printf '%s\n' "$prefix/bin" | sed -e 's/[\\"]/\\&/g' -e 's/[\\&#]/\\&/g')
  places=$(places)
  files=$(printf '%s\n' "$places" | sed 's/^/file /')
  [ ! -e "$prefix/$list" ] || check_list
  for it in $list $places; do refuse_others "$it"; done
  earlier=$(listed file)
  trap clean EXIT
  for it in $places; do lay "$it"; done
  lay_list "$earlier$line_end$files"
  for it in $list $places; do move "$it"; done
  laid=''
  gone=$(printf '%s\n' "$earlier" | grep -vxF "$files" || :)
  if [ -n "$gone" ] && take_files "$gone"; then
    lay_list "$files"
    move "$list"
  fi
  trap - EXIT
  tell
}
tell() {
  echo "abnf_ls and abnf_findings are in $prefix/bin, the lines for editors in $prefix/share/abnf_ls/editors"
  case ":$PATH:" in
    *":$prefix/bin:"*) ;;
    *) printf '%s\n' "$prefix/bin isn't on the PATH: put it there, and \`man abnf_ls\` finds the manual page too" ;;
  esac
}

# ---- what is taken away

take_files() { # LINES: takes these files away. The status says whether all are gone
  printf '%s\n' "$1" | (
    status=0
    while IFS= read -r it; do rm -f "$prefix/${it#file }" || status=1; done
    exit "$status"
  )
}
take_folders() { # LINES: takes these folders away, the innermost first, but those in which something else lies
  printf '%s\n' "$1" | sed -n 's/^folder \([^.]\)/\1/p' | sort -r | while IFS= read -r it; do
    rmdir "$prefix/$it" 2>/dev/null || :
  done
  above=$prefix
  printf '%s\n' "$1" | grep '^folder \.' | while read -r _; do
    rmdir "$above" 2>/dev/null || break
    above=${above%/*}
  done
}
take() {
  [ -e "$prefix/$list" ] || stop 1 "nothing is installed under $prefix: there is no $prefix/$list"
  check_list
  take_files "$(listed file)" || stop 1 'all else is taken away; --uninstall may be called again'
  folders=$(listed folder)
  rm -f "$prefix/$list"
  take_folders "$folders"
  echo "what was installed under $prefix is taken away"
}

act=put
if [ "${1-}" = --uninstall ]; then
  act=take
  shift
fi
[ $# -le 1 ] || usage
case ${1-x} in '' | -*) usage ;; esac
prefix=${1-${HOME:?}/.local}
case $prefix in *[[:cntrl:]]*) stop 1 'the prefix has a control character' ;; esac
case $prefix in /*) ;; *) prefix=$PWD/$prefix ;; esac
prefix=$(printf '%s\n' "$prefix" | sed -e 's#//*#/#g' -e ":again" -e 's#/\./#/#' -e "t again" -e 's#/\.\{0,1\}$##')
[ ! -d "$prefix" ] || prefix=$(cd "$prefix" && pwd)
trap 'fault="it was ended"; exit 129' HUP
trap 'fault="it was ended"; exit 130' INT
trap 'fault="it was ended"; exit 143' TERM
$act
