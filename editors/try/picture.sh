#!/usr/bin/env bash
# Makes a picture of findings and a hover in a draft in a real Vim, by the set-up that editors/vim-plain.vim gives. The editor runs in a terminal of
# tmux, and what that shows is drawn as an SVG by drawn.py.
# Usage: picture.sh PROGRAM PICTURE.svg. VIM_PROGRAM names the editor (vim if left out). Status 0: it is made and has at most 100 kB, 1: it
# isn't as it should be, 2: it could not be made.
set -euo pipefail
here=$(dirname -- "$(realpath -- "${BASH_SOURCE[0]}")")
. "$here/terminal.sh"
[ $# -eq 2 ] || { echo "usage: $name PROGRAM PICTURE.svg" >&2; exit 2; }
picture=$(realpath -- "$2")
set_up "${VIM_PROGRAM:-vim}" "$1"
{
  snippet vim-plain.vim
  # (faults as most colour schemes have them)
  echo 'highlight SpellBad cterm=underline ctermfg=Red ctermbg=NONE'
  echo 'highlight SpellCap cterm=underline ctermfg=Brown ctermbg=NONE'
  echo 'set number noruler noshowcmd noshowmode laststatus=0 shortmess+=F background=light fillchars=eob:\ '
} > "$folder/.vimrc"
# (the hover stands below its name, where it hides no rule)
file=$folder/draft.md
printf '%s\n' '## Greetings' '' '~~~ abnf' 'greeting = "HELLO" SP id-right CRLF' '' '' '' '' 'id-right = 1*(ALPHA / DIGIT / "-")' \
  'reply    = ("OK" / "ERR" code) CRLF' 'nested   = "(" nested ")"' '~~~' > "$file"
columns=76 lines=13 start "$editor" -n "$file"
shows "the findings" 'undefined rule code' 'generates nothing'
keys ':4' Enter; keys C-l; keys K; shows "a hover" 'shortest length 9'
in_tmux capture-pane -e -p -t try | python3 "$here/drawn.py" 76 12 "Vim in a draft: an undefined rule, a rule that generates nothing, and a hover" > "$picture"
keys Escape; keys ":qa!" Enter
is "its size, in kB of 1,000 bytes, is at most 100" "$(($(stat -c %s -- "$picture") > 100000))" 0
[ "$failed" = 0 ]
