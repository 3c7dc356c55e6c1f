# A pack that runs: firmware/pack.c over the archive for C, at the far end of two pseudo-terminals back to back; ./clients takes this in.
# mbpoll and pymodbus read a lifetime and a distance that grow, a ride that is over, and the next hire; then come clients that go away, a
# device that is unplugged, the pack's memory, and what cannot be read or written. What is right the second program says, of the same ticks.

# on Arm the archive is for x86-64 still
compiler=cc start=()
[ "$(uname -m)" = x86_64 ] || { compiler=x86_64-linux-gnu-gcc && start=(./run --start); }
has "$compiler" || { left_out "a pack that runs" "$compiler" gcc-x86-64-linux-gnu && return; }
./run --library
"$compiler" -std=c11 -O2 -Wall -Wextra -Wpedantic -Werror -Ifirmware -o "$room/program" firmware/pack.c target/library/libslatecauseway.a

begin_wire() { # [HOW]: the masters' end is port; the pack's is far, with echo and lines until the pack sets it, if not said otherwise
  begin_line "PTY,link=$room/far$*"
  soon test -e "$room/far" || true
}
line_is() { # its baud, its eight bits, and what would touch a byte
  stty -F "$room/far" -a | tr -s ' ;' '\n' | grep -xE '[0-9]{4,}|cs[5-8]|-?(parenb|cstopb|ixon|opost|icanon|echo)' | tr '\n' ' '
}
begin_pack() { # RECORDING WORDS..
  local recording=$1
  shift
  : >"$room/pins" && : >"$room/told"
  "${start[@]}" "$room/program" "$@" "$room/far" "$recording" >"$room/pins" 2>"$room/told" &
  pack=$!
}
to_pack() { "$@" "$pack" 2>/dev/null || true; } # COMMAND..: where it has ended, what follows tells
is_gone() { ! kill -0 "$pack" 2>/dev/null; }
end_pack() { # SIGNAL: its status is in `ended`
  ended=0
  {
    to_pack kill -"$1"
    soon is_gone || to_pack kill -KILL
    wait "$pack" || ended=$?
  } 2>/dev/null
  pack=
}
ends() { # SIGNAL STATUS
  end_pack "$1"
  same "it ends by SIG$1, with its status" "$2" "$ended"
}

# three times the stored ride, as far as the charger; then the pack stands, as at tick 133, for longer than all this takes
ride=$room/ride.bin stand=$room/stand.bin ridden=$((3 * 189))
records() { dd if="$recording" bs=1 skip=$((4 + 48 * ($1 - 1))) count=$((48 * $2)) status=none; } # FIRST COUNT
records 133 1 >"$room/standing"
for _ in $(seq 17); do cat "$room/standing" "$room/standing" >"$room/twice" && mv "$room/twice" "$room/standing"; done
cat <(head -c 4 "$recording") <(records 1 189) <(records 1 189) <(records 1 189) "$room/standing" >"$ride"
cat <(head -c 4 "$recording") "$room/standing" >"$stand"
ticks() { head -c $((4 + 48 * $2)) "$1" | "$room/second" --calls; } # RECORDING COUNT: a start, and so many ticks
switched() { "$room/second" | cut -d ' ' -f 2,4 | uniq; } # what both switches and the balancing bits are, by the answers to calls
saved() { { cat "$calls"; echo save 248; } | "$room/second" | tail -n 1 | cut -d ' ' -f 5-; }
bytes_of() { od -An -v -tx1 "$1" | tr -d '\n' | tr a-f A-F | cut -c 2-; } # FILE
seconds_of() { od -An -tu4 -j4 -N4 "$1" | tr -d ' ' || echo 0; } # RECORD

# ---- masters

pair() { # MASTER FIRST: two registers as one number
  "$1_master" read "$2" 2 | { read -r low && read -r high && echo $((low + 65536 * high)); }
}
is_more() { now=$(pair "$1" "$2") && [ "$now" -gt "$3" ]; } # MASTER FIRST THAN
grows() { # MASTER WHAT FIRST
  local now=none before
  soon is_more "$1" "$3" -1 || true
  before=$now
  soon is_more "$1" "$3" "$before" && same "$1 reads a $2 that grows" "$before $now" "$before $now" ||
    same "$1 reads a $2 that grows" "more than $before" "$now"
}
hire() { # MASTER: a ride, the pack stands, a handover
  local now=none before=none seconds
  rm -f "$room/bills" "$room/memory"
  begin_pack "$ride" --fast 5 --baud 19200 --number 17 --bills "$room/bills" --memory "$room/memory"
  same_soon "the pack sets its line" "19200 -parenb cs8 -cstopb -ixon -opost -icanon -echo " line_is
  grows "$1" lifetime 32
  grows "$1" distance 100
  ticks "$ride" $((ridden + 10)) >"$calls"
  same_soon "$1 reads 100 to 111 when the ride is over" "$(registers 100 12)" "$1_master" read 100 12
  same_soon "$1 reads 36 to 55 when the pack stands" "$(registers 36 20)" "$1_master" read 36 20
  same_soon "the events in its memory" "$(saved)" bytes_of "$room/memory"
  ! soon is_more "$1" 32 -1 || before=$now
  to_pack kill -USR1
  soon test -s "$room/bills" && soon is_more "$1" 32 -1 || true
  seconds=$(seconds_of "$room/bills")
  same "the hire's seconds are a lifetime from $before to $now" yes \
    "$([ "$before" -le "$seconds" ] && [ "$seconds" -le "$now" ] && echo yes || echo "$seconds")"
  { ticks "$ride" $((10 * seconds)) && echo handover 17 32; } >"$calls"
  same "the desk's record" "$("$room/second" <"$calls" | tail -n 1 | cut -d ' ' -f 5-)" "$(bytes_of "$room/bills")"
  same "the bill" "$("$room/second" --bill <"$room/bills" 2>"$room/said")" "$(./run --built bill <"$room/bills" 2>"$room/said")"
  ticks "$stand" 1 | tail -n 1 >>"$calls"
  same_soon "$1 reads 100 to 117 of the next hire" "$(registers 100 18)" "$1_master" read 100 18
  ends TERM 0
  same "the switches of both hires" "$(switched <"$calls" | tail -n +2)" "$(cat "$room/pins")"
  same "the events in its memory" "$(saved)" "$(bytes_of "$room/memory")"
}
begin_wire
! has mbpoll || hire mbpoll
[ -z "$python" ] || hire pymodbus

# ---- what no master sends

if ! has python3; then
  left_out "a pack's raw line" python3 python3
  stop_line
  return
fi
line_says() { # HEX..: of the settings, which no tick changes
  printf "$(printf %s "$@" | sed 's/../\\x&/g')" | "$room/second" --line >"$room/said"
  bytes_of "$room/said"
}
number() { # BYTE..: low byte first
  local byte digits=
  for byte; do digits=$byte$digits; done
  echo $((16#0$digits))
}
half=AA0301 rest=$(hex $limits | cut -c 7-) one=$(line_says "$(hex $limits)")

# a list that begins with the lifetime is answered as the second program answers it at one of the ten ticks of that second
list=(32 33 0 7 36 37 38 39 40 41 42 43 48 50 51 52 54 55 100 101 102 103 104 105 107 113)
listed=$(printf 'AA 09 %02X' $((2 * ${#list[@]})) && for at in "${list[@]}"; do printf ' %02X 00' "$at"; done)
at_one_tick() { # WHAT RECORDING
  local tick second seen=($(raw $((5 + 4 * ${#list[@]})) "$(hex $listed)"))
  second=$(number "${seen[@]:5:2}" "${seen[@]:9:2}")
  for tick in $(seq $((10 * second)) $((10 * second + 9))); do
    ticks "$2" "$tick" >"$calls"
    [ "$(reply $listed)" != "${seen[*]}" ] || break
  done
  same "$1, at lifetime $second" "$(reply $listed)" "${seen[*]}"
}
rm -f "$room/memory"
begin_pack "$ride" --fast 10 --memory "$room/memory"
at_one_tick "${#list[@]} registers of one moment of the ride" "$ride"
same_soon "the switches of the ride" "$(ticks "$ride" $((ridden + 10)) | switched | tail -n +2)" cat "$room/pins"
answered "the pack, noise before a frame" "$one" "00FF1337$(hex $limits)"
answered "the pack, a frame cut by 50 ms" "$one" "$half" "$rest"
answered "the pack, two frames in one write" "$one $one" "$(hex $limits)$(hex $limits)"
answered "a client that goes away with half a frame" "" "$half"
answered "the client after it" "$(line_says "$half" "$(hex $limits)")" "$(hex $limits)"
answered "the client after that" "$one" "$(hex $limits)"
all=$(hex AA 03 01 2C 00 64)
line_says $(for _ in $(seq 400); do echo "$all"; done) >/dev/null
python3 masters/late_reader.py "$room/port" 82000 400 "$all" >"$room/seen" || true
same "400 replies of 205 bytes that are read a second late" 82000 "$(cmp "$room/said" "$room/seen" && wc -c <"$room/seen")"

# ---- the plug is pulled, in the middle of a frame, and the device comes back under its name

lifetime() { number $(raw 8 "$(hex AA 19)" | cut -d ' ' -f 3-6); }
clock() { cut -d ' ' -f 1 /proc/uptime | tr -d .; } # hundredths of a second
begin_time() { asked=$(clock) before=$(lifetime) told=$(clock); }
end_time() { # WHAT: ten times as fast, the lifetime has gone on with the clock, to a second of the clock
  local least=$((($(clock) - told) / 10 - 10)) after=$(lifetime) most=$((($(clock) - asked) / 10 + 10))
  same "$1, the lifetime goes on with the clock from $before to $after" yes \
    "$([ $((after - before)) -ge "$least" ] && [ $((after - before)) -le "$most" ] && echo yes || echo "and not $least to $most more")"
}
gone="pack: $room/far: unplugged; it is tried again at each tick" back="pack: $room/far: plugged in again"
begin_time
answered "a frame and a half" "$one" "$(hex $limits)$half"
stop_line
same_soon "the plug is pulled" "$gone" cat "$room/told"
sleep 3
begin_wire
same_soon "it is plugged in again" "$gone"$'\n'"$back" cat "$room/told"
answered "the other half" "$one" "$rest"
end_time "unplugged"
# and once more, with replies on the way to a client that does not read: none of them reaches the next one, which is there before the pack
# is back, whatever became of the last request
python3 masters/late_reader.py "$room/port" 0 400 "$all" >"$room/unread" &
soon test -s "$room/unread" || true
stop_line
wait $! || true
same_soon "the plug is pulled while replies wait" "$gone"$'\n'"$back"$'\n'"$gone" cat "$room/told"
to_pack kill -STOP
begin_wire ,raw,echo=0
raw 9 "$(printf '%0528d' 0)$(hex $limits)" >"$room/seen" &
client=$!
sleep 1
to_pack kill -CONT
wait "$client" || true
seen=$(cat "$room/seen")
same "the next client" "$one" "${seen#"$(line_says "$half" 0000000000) "}"
same "it is plugged in again" "$gone"$'\n'"$back"$'\n'"$gone"$'\n'"$back" "$(cat "$room/told")"

begin_time
to_pack kill -STOP
sleep 3
to_pack kill -CONT
end_time "stopped for three seconds"

# ---- the pack's memory

loaded() { # SECONDS: a start, the events that were kept, and the ticks of so many seconds
  ticks "$stand" 0
  echo "load $(bytes_of "$room/kept")"
  ticks "$stand" $((10 * $1)) | tail -n +2
}
events() { # WHAT COMMAND COUNT: a reply with the lifetime that the pack has, and so many events
  local seen=($(raw $((9 + 4 * $3)) "$(hex AA "$2")"))
  loaded "$(number "${seen[@]:3:4}")" >"$calls"
  same "$1" "$(reply AA "$2")" "${seen[*]}"
}
ticks "$ride" $((ridden + 10)) >"$calls"
same_soon "the events in its memory when the ride is over" "$(saved)" bytes_of "$room/memory"
cp "$room/memory" "$room/kept" || true
ends INT 0
begin_pack "$stand" --fast 10 --memory "$room/memory"
events "the same events after an end and a start" 12 6
events "none of them is new" 11 0
end_pack KILL
begin_pack "$stand" --fast 10 --memory "$room/memory"
events "the same events after SIGKILL and a start" 12 6
if has prlimit; then
  to_pack prlimit --fsize=100: --pid
  to_pack kill -USR1
  same_soon "a memory that cannot be written" "pack: $room/memory: File too large" cat "$room/told"
  same "what is there is whole" "$(bytes_of "$room/kept")" "$(bytes_of "$room/memory")"
  to_pack prlimit --fsize=unlimited: --pid
  ticks "$stand" 1 >"$calls"
  same_soon "it is written when it can be" "$(saved)" bytes_of "$room/memory"
  same "it was told once" "pack: $room/memory: File too large" "$(cat "$room/told")"
  ends TERM 0
else
  end_pack TERM
fi

# ---- at its end the recording begins again; and with 334 at 1 the discharge switch goes by the ignition

cat <(head -c 4 "$recording") <(for _ in $(seq 50); do records 1 200; done) >"$room/again.bin"
is_later() { [ "$(lifetime)" -gt "$1" ]; }
begin_pack "$recording" --fast 20
soon is_later 20 || true
at_one_tick "${#list[@]} registers after the recording's end" "$room/again.bin"
ignition='AA 0D 04 4E 01 01 00'
answered "334 is set to 1" "$(line_says "$(hex $ignition)")" "$(hex $ignition)"
has_lines() { [ "$(wc -l <"$1")" -ge "$2" ]; }
soon has_lines "$room/pins" $(($(wc -l <"$room/pins") + 20)) || true
{ ticks "$room/again.bin" 0 && framed $ignition && ticks "$room/again.bin" 2000 | tail -n +2; } | switched >"$room/said"
seen=$(tail -n 12 "$room/pins") all=$(cat "$room/said")
same "the switches of two more rounds" "$([[ "$all" == *"$seen"* ]] && echo "$seen" || cat "$room/said")" "$seen"
ends TERM 0

# ---- a bill that cannot be written: the hire goes on

distance='AA 03 00 64 00 02'
kept="no handover is done, and the hire goes on"
over() { # the ride is, and its distance stands
  ticks "$ride" $((ridden + 10)) >"$calls"
  same_soon "the distance of the ride" "$(reply $distance)" raw 9 "$(hex $distance)"
}
begin_pack "$ride" --fast 50 --bills /dev/full
over
to_pack kill -USR1
same_soon "a bill that cannot be written" "pack: /dev/full: No space left on device: $kept" cat "$room/told"
answered "the distance is as it was" "$(reply $distance)" "$(hex $distance)"
ends TERM 1
if has prlimit; then
  head -c 992 /dev/zero >"$room/bills"
  begin_pack "$ride" --fast 50 --number 17 --bills "$room/bills"
  over
  to_pack prlimit --fsize=1000: --pid
  to_pack kill -USR1
  same_soon "a disk that is full in the middle of a record" "pack: $room/bills: File too large: $kept" cat "$room/told"
  same "nothing of the record is left" 992 "$(wc -c <"$room/bills")"
  to_pack prlimit --fsize=unlimited: --pid
  to_pack kill -USR1
  same_soon "the desk tries again" 1024 stat -c %s "$room/bills"
  tail -c 32 "$room/bills" >"$room/record"
  { ticks "$ride" $((10 * $(seconds_of "$room/record"))) && echo handover 17 32; } >"$calls"
  same "the desk's record" "$("$room/second" <"$calls" | tail -n 1 | cut -d ' ' -f 5-)" "$(bytes_of "$room/record")"
  ends TERM 0
else
  left_out "a disk that fills up" prlimit util-linux
fi

# ---- what cannot be begun is told in a line, and nothing is served

refused() { # WHAT TOLD STATUS WORDS..
  local status=0
  timeout 60 "${start[@]}" "$room/program" "${@:4}" >"$room/said" 2>&1 || status=$?
  same "$1" "$2, $3" "$(cat "$room/said"), $status"
}
for name in bad-cell bad-pulses cut opening-cut opening-padding opening-count none; do
  refused "the recording $name" "$("$room/second" --line second/recordings/$name.bin </dev/null 2>&1 | sed 's/^line/pack/')" 1 \
    "$room/far" second/recordings/$name.bin
done
refused "a recording with no tick" "pack: 0 ticks, the recording ends there" 1 "$room/far" second/recordings/opening-alone.bin
refused "no device" "pack: $room/none: No such file or directory" 1 "$room/none" "$ride"
refused "a device that is no line" "pack: /dev/null: Inappropriate ioctl for device" 1 /dev/null "$ride"
spoilt() { # TOLD: the memory, which stays as it is
  cp "$room/spoilt" "$room/kept"
  refused "a memory that is spoilt" "pack: $room/spoilt: $1" 1 --memory "$room/spoilt" "$room/far" "$ride"
  same "it stays as it is" "$(cksum <"$room/kept")" "$(cksum <"$room/spoilt")"
}
head -c 249 /dev/zero >"$room/spoilt" && spoilt "31: neither 248 bytes nor 192"
{ printf '\xFF\xFF\xFF\xFF' && head -c 244 /dev/zero; } >"$room/spoilt" && spoilt "32: a used record after an unused one"
head -c 248 /dev/zero >"$room/spoilt" && spoilt "33: an event that is never recorded"
head -c 33 /dev/zero >"$room/bills"
refused "bills that are cut" "pack: $room/bills: 81: the last record is cut" 1 --bills "$room/bills" "$room/far" "$ride"
refused "a number that is none" "pack: --fast is a number from 1 to 1000, not '0'" 2 --fast 0 "$room/far" "$ride"
refused "no words" "usage: pack [--baud N] [--fast N] [--number N] [--bills FILE] [--memory FILE] DEVICE RECORDING" 2
stop_line
