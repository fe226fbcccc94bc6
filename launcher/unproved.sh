# Answers words by a run of the sources with checks, where nothing is proved yet. Sourced by ./otsoft.
# shellcheck shell=bash disable=SC2154,SC2034
#
# `rt try` runs the program in a folder of its own, gives no answer of more than 1 MiB, and writes three lines of its own behind what
# the program writes to the fault output. So each file is named by a path that holds in any folder, the output is held back until
# the run has ended, and those lines are taken off.

# place_files WORD..: sets `words` to the words with each file as a path that holds in any folder, `files` to the files as given, and
# `paths` to those paths. A file is the second word that is neither an option nor the value of one, but for `demo`, and the value of --given.
place_files() {
  local word command='' place=0 options=1 option=''
  words=() files=() paths=()
  for word in "$@"; do
    if [ -n "$option" ]; then
      [ "$option" != --given ] || [[ $word == -* ]] || place_file word
      option=''
    elif [ "$options" = 1 ] && [ "$word" = -- ]; then
      options=0
    elif [ "$options" = 1 ] && [[ $word == --given=* ]]; then
      word=${word#--given=}
      place_file word
      word=--given=$word
    elif [ "$options" = 1 ] && [[ $word == --* ]]; then
      [[ $word == *=* ]] || option=$word
    elif [ "$options" = 0 ] || [[ $word != -?* ]]; then
      place=$((place + 1))
      [ "$place" != 1 ] || command=$word
      [ "$place" != 2 ] || [ "$command" = demo ] || place_file word
    fi
    words+=("$word")
  done
}

# place_file NAME: the variable NAME holds a file, and then a path of it from any folder. A pipe or a device is read here, as far as the
# program would read it, since the run is given no such file.
place_file() {
  local -n place_of=$1
  local file=$place_of
  [ -n "$file" ] || return 0
  [[ $file == /* ]] || place_of=$work/folder/$file
  if [ -e "$file" ] && [ ! -f "$file" ] && [ ! -d "$file" ] && head -c 16777217 -- "$file" >"$work/read.${#files[@]}" 2>/dev/null; then
    place_of=$work/read.${#files[@]}
    piped=1
  fi
  files+=("$file")
  paths+=("$place_of")
}

# A line of the fault output, with the file that it names as given
as_given() {
  local line place
  line=$(cat && echo .)
  line=${line%.}
  for place in "${!files[@]}"; do
    case $line in
      "${paths[place]}:"*)
        line=${files[place]}${line#"${paths[place]}"}
        break
        ;;
      "otsoft: ${paths[place]} could not be read"*)
        line="otsoft: ${files[place]}${line#"otsoft: ${paths[place]}"}"
        break
        ;;
    esac
  done
  printf %s "$line"
}

are_utf8() {
  printf '%s\n' "$@" | iconv -f UTF-8 -t UTF-8 >/dev/null 2>&1
}

# answer_unproved WORD..: ends with the answer of the unproved run. Where that run gives none, the program is proved, and this returns.
answer_unproved() {
  local status piped=''
  echo "otsoft: not proved on this machine yet; this answer is of the same sources run with checks, which takes about a minute. ./prove proves them once, in $time_to_prove" >&2
  work=$(mktemp -d) || exit 70
  trap 'rm -rf "$work"' EXIT
  trap 'exit 130' INT TERM
  ln -s "$PWD" "$work/folder"
  # The program is handed no words where one is not UTF-8, and `rt try` takes none such.
  if are_utf8 "$@"; then place_files "$@"; else place_files; fi
  (cd "$top/crates/otsoft_main" && exec rt try -- "${words[@]}") >"$work/out" 2>"$work/err" </dev/null
  status=$?
  if [[ $(tail -n 1 "$work/err") == "run=ended status=$status "* ]]; then
    head -n -3 "$work/err" | as_given >&2
    cat "$work/out" 2>/dev/null || { echo 'otsoft: the output could not be written' >&2; status=5; }
    exit "$status"
  fi
  echo 'otsoft: that run gave no answer, as of a report of more than 1 MiB; proving the program first' >&2
  "$top/prove" >&2 || exit
  if [ -n "$piped" ]; then
    # what was read of a pipe is not there a second time
    "$program" "${words[@]}" 2>"$work/err"
    status=$?
    as_given <"$work/err" >&2
    exit "$status"
  fi
  rm -rf "$work"
}
