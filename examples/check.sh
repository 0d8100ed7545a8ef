#!/usr/bin/env bash
# Runs each example: each of its captures through the program, by the word in its file word (replay if there is none).
# Compared are the status (0 if no file status is there) and, as far as the example has them, the text with the
# transcript beside the capture, and the frames that an encoder made (timestamp, kind, size, SHA-256). Then the lists of
# lines, each of which makes a capture; the files that tools made, which must come again; the lines of docs/USING.md,
# which are those of a test; what is too long to be kept as a file; drills; and each end that can be brought about: its
# status, and its line on standard error.
set -u
cd "$(dirname "$0")/.." || exit 1
passed=0 failed=0
folder=$(mktemp -d) || exit 1
trap 'rm -rf "$folder"' EXIT
text=$folder/text long=$folder/long

pass() {
  passed=$((passed + 1))
}

# fail WORD..: says what failed
fail() {
  echo "$*"
  failed=$((failed + 1))
}

# the frames of a transcript, as an example's file frames has them
frames_of() {
  python3 -c '
import hashlib, sys
for line in open(sys.argv[1]):
    words = line.split()
    if len(words) == 7 and words[1] == "frame":
        octets = bytes.fromhex(words[6])
        print(words[5], words[4], len(octets), hashlib.sha256(octets).hexdigest())
' "$1"
}

# compared CAPTURE WORD STATUS: the program does what the files beside the capture say
compared() {
  local capture=$1 word=$2 wanted=$3 transcript=${1%capture}transcript frames=${1%capture}frames status
  ./vrx "$word" < "$capture" > "$text" 2> /dev/null
  status=$?
  if [ "$status" != "$wanted" ]; then
    fail "$capture: status $status, not $wanted"
  elif [ -f "$transcript" ] && ! cmp -s "$text" "$transcript"; then
    fail "$capture: another text"
    diff "$transcript" "$text" | head -n 10 | cut -c1-200
  elif [ -f "$frames" ] && [ "$(frames_of "$text")" != "$(cat "$frames")" ]; then
    fail "$capture: other frames"
  else
    pass
  fi
}

for example in examples/*/; do
  word=replay wanted=0
  [ ! -f "$example/word" ] || word=$(cat "$example/word")
  [ ! -f "$example/status" ] || wanted=$(cat "$example/status")
  for capture in "$example"capture "$example"*.capture; do
    [ ! -f "$capture" ] || compared "$capture" "$word" "$wanted"
  done
done

# says WORD STATUS TEXT WHAT: so the program ends over the capture in $long, which is called WHAT
says() {
  local word=$1 wanted=$2 status
  printf '%s' "$3" > "$text.wanted"
  crates/vrx_program/out/vrx_program "$word" < "$long" > "$text" 2> /dev/null
  status=$?
  if [ "$status" = "$wanted" ] && cmp -s "$text" "$text.wanted"; then
    pass
  else
    fail "$word, $4: status $status and '$(head -c 100 "$text")', not $wanted and '$(head -c 100 "$text.wanted")'"
  fi
}

capture=examples/one_keyframe/capture
head=$(head -n 1 $capture)
short="bad rtp Short 1"

# judged LIST: 'right', or the reason that is the name of the list
judged() {
  case $1 in
    blank | tick | right) echo right ;;
    *) echo "$1" ;;
  esac
}

# each line of a list as the first line of a capture; a datagram of one octet follows it
for list in right settings; do
  grep -v '^## ' "examples/first_lines/$list" > "$folder/lines"
  while IFS= read -r line; do
    printf '%s\nd 0 80\n' "$line" > "$long"
    for word in replay inspect; do
      [ $word = replay ] && reply="drop NotRtp" || reply=$short
      reason=$(judged $list)
      if [ "$reason" = right ]; then
        says $word 0 "2 $reply"$'\n' "first line '$line'"
      else
        says $word 2 "error line 1 $reason"$'\n' "first line '$line'"
      fi
    done
  done < "$folder/lines"
done

# each line of a list between two datagrams, and as the last line, without a line feed; a replay has a line for a tick
for list in blank tick kind moment end hex; do
  grep -v '^## ' "examples/other_lines/$list" > "$folder/lines"
  while IFS= read -r line; do
    for word in replay inspect; do
      [ $word = replay ] && reply="drop NotRtp" || reply=$short
      reason=$(judged $list)
      if [ "$reason" = right ]; then
        status=0 third="4 $reply"$'\n' last=
        [ $list:$word != tick:replay ] || third=$'3 tick\n'$third last=$'2 tick\n'
      else
        status=2 third="error line 3 $reason"$'\n' last="error line 2 $reason"$'\n'
      fi
      printf '%s\nd 0 80\n%s\nd 1 80\n' "$head" "$line" > "$long"
      says $word $status "2 $reply"$'\n'"$third" "line 3 '$line'"
      printf '%s\n%s' "$head" "$line" > "$long"
      says $word $status "$last" "last line '$line'"
    done
  done < "$folder/lines"
done

# again FILE INPUT WORD..: the command gives the file again, octet for octet
again() {
  local file=$1 input=$2
  shift 2
  if "$@" < "$input" 2> /dev/null | cmp -s - "$file"; then
    pass
  else
    fail "$file: '$*' gives another"
  fi
}

call=examples/long_call
again $call/capture /dev/null tools/make_call 1 300
again $call/sent /dev/null tools/make_call 1 300 sent
again $call/transcript $call/sent tools/expected_frames
call=examples/stopped_decoder
again $call/capture /dev/null tools/made_calls stopped_decoder capture
again $call/transcript /dev/null tools/made_calls stopped_decoder transcript

# the Rattle of docs/USING.md is what the test of the same name runs
if cmp -s <(awk '/^```rust/ { f = 1; next } /^```/ { f = 0 } f' docs/USING.md) \
  <(awk '/^\/\/ begin/ { f = 1; next } /^\/\/ end/ { f = 0 } f' crates/vrx_trials/src/tests/using.rt); then
  pass
else
  fail "docs/USING.md: other lines than crates/vrx_trials/src/tests/using.rt"
fi

# The calls that are too long to be kept, with their transcripts.
for scene in late_pull one_number half_the_space moments_back longest; do
  tools/made_calls $scene capture > "$folder/$scene.capture"
  tools/made_calls $scene transcript > "$folder/$scene.transcript"
  compared "$folder/$scene.capture" replay 0
done

# about_20000 FRONT END STATUS REPLAYED INSPECTED: both words end so over a line of this front, 19,996 digits and this
# end
digits=$(printf '80%.0s' {1..9998})
about_20000() {
  printf '%s\n%s%s'"$2" "$head" "$1" "$digits" > "$long"
  says replay "$3" "$4" "a line of '$1' and 19,996 digits"
  says inspect "$3" "$5" "a line of '$1' and 19,996 digits"
}

# With four octets before the digits a line has 20,000, and with five one too many.
dropped=$'2 drop TooLong\n'
inspected=$'2 rtp pt=0 seq=32896 ts=2155905152 ssrc=80808080 m=1 csrc=0 ext=- pad=0 payload=9986\n'
bad_line() { about_20000 "$1" "$2" 2 "error line 2 $3"$'\n' "error line 2 $3"$'\n'; }
about_20000 "d 0 " "" 0 "$dropped" "$inspected"
about_20000 "d 0 " "\n" 0 "$dropped" "$inspected"
about_20000 "#   " "\n" 0 "" ""
bad_line "d 10 " "" long
bad_line "d 10 " "\n" long
bad_line "#    " "\n" long
bad_line "x   " "\n" kind
bad_line "x    " "\n" long
bad_line "p   " "\n" moment
bad_line "p    " "\n" long
bad_line "d 0  " "\n" long

# first_line FRONT OCTET COUNT: a first line that ends with so many of an octet is no settings line
first_line() {
  { printf '%s' "$1"; head -c "$3" /dev/zero | tr '\0' "$2"; printf '\np 0\n'; } > "$long"
  says replay 2 $'error line 1 settings\n' "a first line with $3 of '$2'"
  says inspect 2 $'error line 1 settings\n' "a first line with $3 of '$2'"
}

first_line "" x 20000
first_line "" x 20001
first_line "$head" " " 20001

# Line 2,097,152 is the last that is taken; which line follows it is all the same.
{ echo "$head"; yes "" | head -n 2097150; echo "p 1"; echo "p 2"; } > "$long"
says replay 2 $'2097152 notready\nerror line 2097153 lines\n' "2,097,153 lines"
{ head -n 2097152 "$long"; head -c 20001 /dev/zero | tr '\0' x; } > "$long.x"
mv "$long.x" "$long"
says replay 2 $'2097152 notready\nerror line 2097153 lines\n' "a line of 20,001 octets after 2,097,152 others"

# limit REASON COUNT LINE: after a settings line stands this line so many times, and the last time it is bad
limit() {
  local reason=$1 count=$2 line=$3
  { head -n 1 $capture; yes "$line" | head -n "$count"; } > "$long"
  ./vrx inspect < "$long" > "$text" 2> /dev/null
  if [ "$?" = 2 ] && [ "$(cat "$text")" = "error line $((count + 1)) $reason" ]; then
    pass
  else
    fail "$count lines '$line': $(tail -n 1 "$text" | cut -c1-60)"
  fi
}

limit lines 2097152 ""
limit events 1048577 "p 0"

# A decoder that pulls once: of twenty thousand packets of 1,000 octets only the 2,048 of the window are kept, so that
# 16 MiB of address space are enough. The pull gives the least keyframe that the window holds whole.
tools/long_capture 20000 once > "$long"
(ulimit -v 16384 && crates/vrx_program/out/vrx_program replay < "$long" > "$text")
if [ "$?" = 0 ] && tail -n 1 "$text" | grep -q '^20002 frame 83536 83545 key '; then
  pass
else
  fail "twenty thousand packets and one pull: $(tail -n 1 "$text" | cut -c1-60)"
fi

# three threads: each transcript is the replay of the order that it has, a bad line gives the error line alone, and a
# capture without events nothing
for runs in "one_keyframe 20" "real_call 200"; do
  if tools/live_orders "examples/${runs% *}/capture" --runs "${runs#* }" > "$text" 2>&1; then
    pass
  else
    fail "live of ${runs% *}: $(cat "$text")"
  fi
done
printf '%s\nd 0 80\nx\n' "$head" > "$long"
says live 2 $'error line 3 kind\n' "a bad line after an event"
printf '%s\n' "$head" > "$long"
says live 0 "" "no events"

# Drills: each summary is the one that another program counted, and 10,000 frames need no more memory than a few do.
for summary in examples/drills/*.summary; do
  name=${summary##*/} name=${name%.summary}
  ./vrx drill "${name%-*}" "${name#*-}" < /dev/null > "$text" 2> /dev/null
  if [ "$?" = 0 ] && cmp -s "$text" "$summary"; then
    pass
  else
    fail "drill ${name%-*} ${name#*-}: another summary"
    diff "$summary" "$text" | head -n 10
  fi
done
(ulimit -v 16384 && crates/vrx_program/out/vrx_program drill 7 10000 < /dev/null > "$text")
if [ "$?" = 0 ] && [ "$(head -n 1 "$text")" = "drill 7 10000" ] && [ "$(wc -l < "$text")" = 8 ]; then
  pass
else
  fail "a drill of 10,000 frames: $(tail -n 1 "$text" | cut -c1-60)"
fi

# told STATUS LINE INPUT OUTPUT WORD..: with these words the program ends so, and standard error has this line
told() {
  local wanted=$1 line=$2 input=$3 output=$4 status
  shift 4
  ./vrx "$@" < "$input" > "$output" 2> "$text"
  status=$?
  if [ "$status" = "$wanted" ] && [ "$(cat "$text")" = "$line" ]; then
    pass
  else
    fail "words '$*': status $status and '$(cat "$text")', not $wanted and '$line'"
  fi
}

usage="usage: vrx replay|live|inspect < CAPTURE, or vrx drill SEED FRAMES"
bad="vrx: a line of the capture is bad, or its settings are refused"
told 0 "" $capture /dev/null replay
told 0 "" $capture /dev/null inspect
told 0 "" $capture /dev/null live
told 1 "$usage" $capture /dev/null
told 1 "$usage" $capture /dev/null replay twice
told 1 "$usage" $capture /dev/null replay inspect
told 1 "$usage" $capture /dev/null live twice
told 1 "$usage" $capture /dev/null Inspect
told 1 "$usage" $capture /dev/null $'replay\xff'
told 1 "$usage" $capture /dev/null drill 7 0
told 1 "$usage" $capture /dev/null drill 7 10001
told 1 "$usage" $capture /dev/null drill 07 1
told 1 "$usage" $capture /dev/null drill 18446744073709551616 1
told 0 "" examples /dev/null drill 1 1
told 2 "$bad" examples/bad_lines/kind.capture /dev/null replay
told 2 "$bad" examples/bad_lines/kind.capture /dev/null inspect
told 2 "$bad" examples/bad_line_after_a_tick/capture /dev/null replay
told 3 "vrx: a read failed" examples /dev/null replay
told 3 "vrx: a read failed" examples /dev/null inspect
told 3 "vrx: a read failed" examples /dev/null live
told 4 "vrx: a write failed" $capture /dev/full replay
told 4 "vrx: a write failed" $capture /dev/full inspect
told 4 "vrx: a write failed" $capture /dev/full live
told 4 "vrx: a write failed" $capture /dev/full drill 1 1
echo "examples: $passed passed, $failed failed"
[ "$failed" = 0 ]
