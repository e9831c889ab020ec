# What the scripts share that drive an editor in a terminal of tmux; each reads this file in and then calls `set_up EDITOR PROGRAM`.
# It makes a folder, which is the editor's home too, with a link to the program and a grammar, and takes it away in the end. What the
# editor shows is read from the terminal, what it writes from the file.
name=$(basename -- "$0")
editors=$(dirname -- "$(realpath -- "${BASH_SOURCE[0]}")")/..
cannot() { echo "$name: $*" >&2; exit 2; }
in_tmux() { tmux -u -S "$folder/socket" -f /dev/null "$@"; }
set_up() { # EDITOR PROGRAM
  [ $# -eq 2 ] || { echo "usage: $name PROGRAM" >&2; exit 2; }
  program=$(realpath -- "$2")
  [ -x "$program" ] || cannot "no program at $program"
  for it in "$1" tmux; do command -v "$it" >/dev/null || cannot "no $it"; done
  editor=$1 version=$("$1" --version | head -n 1)
  folder=$(mktemp -d "${TMPDIR:-/tmp}/try $name ü.XXXXXX")
  trap 'in_tmux kill-server 2>/dev/null || true; rm -rf -- "$folder"' EXIT
  export HOME=$folder LC_ALL=C.UTF-8 TERM=xterm-256color XDG_CONFIG_HOME="$folder/config" XDG_CACHE_HOME="$folder/cache"
  ln -s -- "$program" "$folder/the program"
  file=$folder/a.abnf passed=0 failed=0
  printf '%s\n' '; a grämmar 😀' '' 'greeting = hello SP name ; 😀' 'hello    = "hi" / "hello"' 'NAME     = 1*ALPHA' \
    'name    =/ "x"/hello/name ?' 'id-right = hello' 'use      = id-right' > "$file"
  cp -- "$file" "$folder/whole"
}
drafts() { # in place of the grammar: in Markdown, with findings in lines 4 to 6; in RFCXML, with one in line 2; and one without a grammar
  file=$folder/draft-a.md
  printf '%s\n' '# A draft' '' '~~~ abnf' "a = <é€e$(printf '\314\201')😀> nope" 'b = b "x"' 'c = "x" / nope' '~~~' > "$file"
  printf '%s\n' '<rfc><artwork type="abnf">' 'a = "x" / nope' '</artwork></rfc>' > "$folder/draft-b.xml"
  printf '%s\n' '# A draft' 'a = nope' > "$folder/draft-c.md"
}
draft() { # in place of the grammar: in Markdown, with a finding in line 4, and a name in lines 5 and 6 that prose has too
  file=$folder/draft-d.md
  printf '%s\n' '# A draft of id-right' '' '~~~ abnf' 'a = nope' 'b = id-right' 'id-right = "hi"' '~~~' > "$file"
  sed '4,$s/id-right/id-left/' "$file" > "$folder/renamed_draft"
}
snippet() { # FILE: as it is installed, with the program's path in it
  sed "s#/path/to/abnf_ls/out/abnf_[a-z]*#$folder/the program#" "$editors/$1"
}
is() { # WHAT GOT WANTED
  if [ "$2" = "$3" ]; then passed=$((passed + 1)); echo "ok   $1"; return; fi
  failed=$((failed + 1)); printf 'FAIL %s\n     got  %s\n     want %s\n' "$1" "$2" "$3"
}
start() { # COMMAND..: in the terminal, of so many `columns` and `lines`
  in_tmux new-session -d -s try -x "${columns:-120}" -y "${lines:-40}" "$(printf '%q ' "$@") 2>$(printf %q "$folder/stderr")"
}
screen() { in_tmux capture-pane -p -t try; }
keys() { in_tmux send-keys -t try "$@"; sleep 0.2; }
shows() { # WHAT TEXT..: each text stands in the terminal within ten seconds, on as many lines as `times` says, one if it is left out
  local what=$1 text missing end=$((SECONDS + 10))
  shift
  while :; do
    missing=
    for text in "$@"; do [ "$(grep -cF -- "$text" <<<"$(screen)")" -ge "${times:-1}" ] || missing=$text; done
    [ -n "$missing" ] && [ "$SECONDS" -lt "$end" ] || break
    sleep 0.1
  done
  is "$what" "${missing:+no \"$missing\"}" ""
  [ -z "$missing" ] || screen
}
writes() { # WHAT FILE KEYS..: the file is as wanted within ten seconds, written by these keys, again and again
  local what=$1 wanted=$2 end=$((SECONDS + 10))
  shift 2
  while keys "$@"; ! cmp -s -- "$file" "$wanted" && [ "$SECONDS" -lt "$end" ]; do sleep 0.5; done
  is "$what" "$(cat -- "$file")" "$(cat -- "$wanted")"
}
server() { pgrep -n -f -- "$folder/the program\$" || echo none; } # its number
is_new() { # NUMBER: the server that runs is another than this one
  local now=$1 end=$((SECONDS + 10))
  while [ "$now" = "$1" ] || [ "$now" = none ]; do [ "$SECONDS" -lt "$end" ] || break; sleep 0.1; now=$(server); done
  is "another server" "$([ "$now" = "$1" ] || [ "$now" = none ] && echo "$now")" ""
}
finish() { # KEYS..: by which the editor ends
  local end=$((SECONDS + 10))
  keys "$@"
  while in_tmux has-session -t try 2>/dev/null && [ "$SECONDS" -lt "$end" ]; do sleep 0.1; done
  is "the end" "$(in_tmux has-session -t try 2>/dev/null && echo 'it still runs')" ""
  [ "$failed" = 0 ] || cat -- "$folder/stderr" >&2
  echo "$name: $passed passed, $failed failed ($version)"
  [ "$failed" = 0 ]
}
