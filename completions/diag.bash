# Completion of `diag` and `diag-boards` for bash: `source completions/diag.bash`. It needs neither the launcher nor the checkout.

# Made by `docs/write-help --write`: each form with the number of words before its options and the endings of its FILE, and each option,
# with `=` before a number, its forms, and the endings and the other options that it goes with, if not with all.
_diag_table='form serve 3 .bench,.dev
form plan 3 .bench,.dev
form compile 3 .bench,.dev
form check 3 .nnf
form ask 4 .nnf
form load 3 -
form --build 2 -
form --path 2 -
form --version 2 -
form --refused 2 -
form --help 2 -
option --narrow serve,plan,compile - -
option --budget= serve,compile - -
option --sessions= serve,ask - -
option --frames= serve .bench -
option --levels= serve - -
option --least serve - -
option --search serve - --sessions,--frames,--levels'

# Whether a word is one of a list with commas. `-` is a list of all.
_diag_is_in() { [[ $2 == - || ,$2, == *,"$1",* ]]; }

_diag() {
  local word=${COMP_WORDS[COMP_CWORD]} form=${COMP_WORDS[1]-} file=${COMP_WORDS[2]-} given place=0 endings='' forms='' options=''
  local kind name first second third
  COMPREPLY=()
  given=("${COMP_WORDS[@]:3:COMP_CWORD > 3 ? COMP_CWORD - 3 : 0}")
  while read -r kind name first second third; do
    if [ "$kind" = form ]; then
      forms+="$name "
      [ "$name" != "$form" ] || place=$first endings=${second#-}
    elif _diag_is_in "$form" "$first" && _diag_is_in ".${file##*.}" "$second" && _diag_fits "${name%=}" "$third"; then
      options+="$name "
    fi
  done <<<"$_diag_table"
  if [ "$COMP_CWORD" -eq 1 ]; then
    mapfile -t COMPREPLY < <(compgen -W "$forms" -- "$word")
  elif [ -z "$endings" ]; then
    return
  elif [ "$COMP_CWORD" -eq 2 ]; then
    _diag_files "$word" "$endings"
  # A number, such as HEALTH after the file of `ask` or that of an option, is for the user to know.
  elif [ "$COMP_CWORD" -ge "$place" ] && [[ " $_diag_table" != *" ${COMP_WORDS[COMP_CWORD - 1]}= "* ]]; then
    mapfile -t COMPREPLY < <(compgen -W "${options//=/}" -- "$word")
  fi
}

# Whether an option may follow the words that are given: it is none of them, and it and they go with each other.
_diag_fits() {
  local other kind name first second third
  for other in "${given[@]}"; do
    [ "$other" != "$1" ] && { [[ $other != --* ]] || _diag_is_in "$other" "$2"; } || return
    while read -r kind name first second third; do
      [ "${name%=}" != "$other" ] || _diag_is_in "$1" "$third" || return
    done <<<"$_diag_table"
  done
}

# Offers folders, and files with one of these endings. As names of files they are quoted where they have to be, and a folder alone is gone
# into.
_diag_files() {
  local path
  compopt -o filenames 2>/dev/null
  while IFS= read -r path; do
    if [ -d "${path/#\~\//$HOME/}" ] || [ "$2" = - ] || { [[ $path == *.* ]] && _diag_is_in ".${path##*.}" "$2"; }; then COMPREPLY+=("$path"); fi
  done < <(compgen -f -- "$1")
}

# Made likewise: each option of `diag-boards`, with `=` before a value, and its choices or `file`.
_diag_boards_table='-h -
--help -
--narrow -
--no-narrow -
--engine= auto,graph,search
--budget= -
--frames= -
--program= file
-o= file
--output= file
--resume -
--csv -
--list= -
--blame -
--next -
--seconds -
--summary -
--ignore= -
--timeout= -
--jobs= -
--cluster= -
--check= clasp'

_diag_boards() {
  local word=${COMP_WORDS[COMP_CWORD]} other takes='' place=1 name options=''
  COMPREPLY=()
  # What the option before takes, and which operand this is.
  for other in "${COMP_WORDS[@]:1:COMP_CWORD - 1}"; do
    if [ -n "$takes" ]; then
      takes=''
    elif [[ $other == -?* ]]; then
      takes=$(awk -v option="$other=" '$1 == option { print $2 }' <<<"$_diag_boards_table")
    else
      place=$((place + 1))
    fi
  done
  while read -r name _; do
    [[ $name == --ignore= || " ${COMP_WORDS[*]:1:COMP_CWORD - 1} " != *" ${name%=} "* ]] && options+="${name%=} "
  done <<<"$_diag_boards_table"
  case $takes in
    -) ;;
    file) _diag_files "$word" - ;;
    ?*) mapfile -t COMPREPLY < <(compgen -W "${takes//,/ }" -- "$word") ;;
    *)
      if [[ $word == -* || $place -gt 2 ]]; then
        mapfile -t COMPREPLY < <(compgen -W "$options" -- "$word")
      elif [ "$place" -eq 1 ]; then
        _diag_files "$word" .bench,.dev
      else
        _diag_files "$word" -
      fi
      ;;
  esac
}

complete -F _diag diag
complete -F _diag_boards diag-boards
