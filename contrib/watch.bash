# What `watch` of contrib/bench does, which reads this file: when a register or a word of memory changes.

# The events of a trace that may change a register or a word of memory: those that issue what writes the register, and
# answers and faults that end an access of it. Before them come the lines of `pipe`: accesses are answered in the order of
# their issue. A store whose address the trace doesn't tell may be to any word.
awk_candidates='
function put(what) { pending[++last] = what }
function put_stores(count,  n) {
  for (n = 0; n < count; n++)
    put(operand[2] == "r0" && operand[3] ~ /^[0-9]+$/ ? operand[3] - operand[3] % (4 * count) + 4 * n : "any")
}
function ends() { first++; return pending[first] == watched || row == "mem" && pending[first] == "any" }
/^t[012]/ && hex($2) % 2 { put(int(hex($2) / 2) % 2 ? hex($4) : "r" int(hex($2) / 128) % 32) }
/ issue / {
  split($6, operand, /[][,]/)
  one = operand[1]
  other = $5 ~ /^ld\.d/ ? "r" (substr(one, 2) + 1) % 32 : $5 ~ /^[bj]sr/ ? "r1" : ""
  if (one == watched && $5 !~ /^(st|tbnd|jmp|jsr)/ || other == watched) print $1
  if ($5 ~ /^(ld|xmem)/ && $5 !~ /^lda/) put(one)
  if ($5 ~ /^ld\.d/) put(other)
  if ($5 ~ /^(st|xmem)/) put_stores($5 ~ /^st\.d/ ? 2 : 1)
}
/ answer$/ && ends() { print $1 }
/ fault / { for (found = 0; first < last;) found += ends(); if (found) print $1 }
'

# The first of the events in $work/candidates after which what is asked for is another, and its value then. A script of
# `mon` has 64 commands, so that 32 events are looked at together.
first_change() {
  local ask=$1 before=$2 looked=0 all group script n found
  all=$(wc -l <"$work/candidates")
  while mapfile -t -n 32 group && [ "${#group[@]}" -gt 0 ]; do
    script=("$ask")
    for ((n = 1; n < ${#group[@]}; n++)); do script+=("step $((group[n] - group[n - 1]))" "$ask"); done
    session "${group[0]}" "${script[@]}" || return
    found=$(values <"$work/said" | awk -v before="$before" '$2 "" != before { print; exit }')
    [ -z "$found" ] || { echo "$found"; return; }
    looked=$((looked + ${#group[@]}))
    ((looked % 1024)) || echo "bench: looked at $looked of $all events, up to event ${group[-1]}" >&2
  done <"$work/candidates"
}

# The same by the trace of the program, which has the value of each register and the datum of each access: the first change
# after so many events, by the lines of all events. A transaction is made where it is answered, or by a fault with all others.
awk_changes='
function stored(word, enable, datum,  at) {
  if (enable == "F") return datum
  if (enable == "C") return substr(datum, 5) substr(word, 5)
  if (enable == "3") return substr(word, 1, 4) substr(datum, 5)
  at = 2 * index("8421", enable) - 2
  return substr(word, 1, at) substr(datum, 7) substr(word, at + 3)
}
function finish() {
  done++
  if (now != "" && kind[done] == "l") now = value[done]
  if (now != "" && kind[done] == "s") now = stored(now, enable[done], value[done])
}
function keep(what, mark, datum) { kind[all] = what; enable[all] = mark; value[all] = datum }
FILENAME ~ /\/steps$/ && $1 != "end" {
  step++
  loaded = int(hex($3) / 2097152) % 32
  for (n = 4; n <= NF; n += width) {
    width = $n ~ /^[ls]$/ ? 4 : 2
    if (width == 4) all++
    if ($n == watched) at_once[step] = $(n + 1)
    if ($n == "s" && $(n + 1) "" == watched "") keep("s", $(n + 2), $(n + 3))
    if ($n == "l" && "r" loaded == watched && loaded > 0) { keep("l", "", $(n + 3)); waits[step] }
    if ($n == "l") loaded = (loaded + 1) % 32
  }
  last[step] = all
}
FILENAME ~ /\/steps$/ { next }
$1 > here && now == "" { now = before }
/ (issue|output) / {
  issued++
  if (now != "" && issued in at_once) now = at_once[issued]
  if (now != "" && issued in waits) now = "--------"
}
/ answer$/ { finish() }
/ fault / { while (done < last[issued]) finish() }
now != "" && now "" != before "" { print $1, now; exit }
'

# The first event after which what is watched is another, and its value then, in the mode in which there is a trace.
traced_change() {
  "$m88" trace 100000 none - <"$work/source" >"$work/steps" 2>"$work/complaint" || tell_complaint || return
  session 0 'trace 1000000' || return
  awk -v watched="$1" -v here="$events" -v before="$2" "$awk_words$awk_changes" "$work/steps" "$work/said"
}

# The same in the other one, by sessions that look at what may have changed.
looked_change() {
  local watched=$1 before=$2 ask=$3
  session "$events" 'trace 1000000' || return
  { do_pipe; cat "$work/said"; } | awk -v watched="$watched" -v row="$row" "$awk_words$awk_candidates" >"$work/candidates"
  first_change "$ask" "$before"
}

do_watch() {
  local ask=regs before found row=mem column=3 watched=$1
  is_register "$1" || { word_of "$1" && watched=$address ask="mem $address 1"; } || return
  session "$events" "$ask" || return
  before=$(values <"$work/said" | cut -d ' ' -f 2)
  if [ "${#mode[@]}" -eq 0 ]; then
    found=$(traced_change "$watched" "$before")
  else
    [ "$row" != mem ] || watched=$((16#$watched))
    found=$(looked_change "$watched" "$before" "$ask")
  fi || return
  [ -n "$found" ] || { echo "$1 keeps $before to the end of the run"; return; }
  return_to "${found% *}" && echo "$1 $before -> ${found#* }"
}
