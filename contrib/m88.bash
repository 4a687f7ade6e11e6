# Completion of the words of m88 for bash, as the usage text of the program has them: Tab runs the program that is called,
# `m88 help`. Read it in a shell, by
# . contrib/m88.bash, or copy it to the folder of completions, as /usr/share/bash-completion/completions/m88.
_m88() {
  local word=${COMP_WORDS[COMP_CWORD]} line form choices=
  while IFS= read -r line; do
    read -ra form <<<"${line%%<*}"
    case $COMP_CWORD:$line in
      1:"  m88 "*) choices+=" ${form[1]}" ;;
      *:"  m88 ${COMP_WORDS[1]} "*) choices=${form[COMP_CWORD]:-} ;;
    esac
  done < <(M88_BUILD=0 "$1" help 2>&1 </dev/null)
  case ${COMP_WORDS[1]}:$choices in
    *:FRAMES) choices="1 2 4 8 16 32 64" ;;
    *:LIMIT) choices="100 1000 1000000" ;;
    *:ABSENT) choices="none all" ;;
    share:SCHEDULE) choices="- i r e t" ;;
    *:SCHEDULE) choices="- i r e" ;;
    *:"[mxm]") choices=mxm ;;
    *:NUMBER) choices="0 1" ;;
    *:COUNT) choices="100 1000 40000" ;;
  esac
  # Where no word fits, as after <, bash completes the names of files.
  COMPREPLY=($(compgen -W "$choices" -- "$word"))
}
complete -o default -F _m88 m88 ./m88
# m88list and m88serve take no words; bash completes the names of files behind <.
complete -o default -W "" m88list ./m88list m88serve ./m88serve
# m88source takes places and what is said of them, behind `at` the address of a binary first.
_m88_source() {
  local choices="fixed vectors"
  case $COMP_CWORD:${COMP_WORDS[1]} in
    1:*) choices+=" at" ;;
    2:at) choices=0x ;;
    *:at) choices+=" start" ;;
  esac
  case ${COMP_WORDS[COMP_CWORD-1]} in fixed|vectors|start) choices=0x ;; esac
  COMPREPLY=($(compgen -W "$choices" -- "${COMP_WORDS[COMP_CWORD]}"))
}
complete -o default -F _m88_source m88source ./m88source
# m88super takes the word `fault`, then the most instructions of a handler.
_m88_super() {
  local choices=
  case $COMP_CWORD:${COMP_WORDS[1]} in
    1:*) choices=fault ;;
    2:fault) choices="100 1000 10000000" ;;
  esac
  COMPREPLY=($(compgen -W "$choices" -- "${COMP_WORDS[COMP_CWORD]}"))
}
complete -o default -F _m88_super m88super ./m88super
# Of contrib/bench a source or records, then the words of its board; of contrib/session these words; of contrib/own the letters
# of a shared run; of contrib/many a folder, then what its inputs are. contrib/ticks takes two numbers, contrib/entries the
# words of `m88 trace`.
_m88_beside() {
  local word=${COMP_WORDS[COMP_CWORD]} choices=
  case ${COMP_WORDS[0]##*/}:$COMP_CWORD in
    bench:2) choices="none all" ;;
    bench:3) choices="- i r e" ;;
    bench:4) choices="mxm" ;;
    session:1) choices="none all" ;;
    session:2) choices="- i r e" ;;
    session:4) choices="mxm" ;;
    own:1) choices="- i r e t" ;;
    many:2) choices="soak schedules pages again" ;;
    entries:2) choices="none all" ;;
    entries:3) choices="- i r e" ;;
  esac
  COMPREPLY=($(compgen -W "$choices" -- "$word"))
}
complete -o default -F _m88_beside bench session own many entries
