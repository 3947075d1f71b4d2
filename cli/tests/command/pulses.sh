# pulses and pulse.
none='\020\0\0\0\0\0\0\0\0\0\0\0\0\0\0\0'
"$cfb" new p.cfb --size 64K --mini 1K >/dev/null
feed "$none" put p.cfb log
run pulses p.cfb log
expect "no pulses" gives "pulses 0\nticks 0\ntime 0:00:00.0"
run pulse p.cfb log 12 25
expect "pulse" done_quietly
run pulse p.cfb log 65535 4294967295
run pulse p.cfb log 0 1
run pulses p.cfb log
expect "pulses" gives "pulses 3\nticks 4294967321\ntime 119:18:16.7\n$(printf 'record 0: valve 12 ticks 25\nrecord 1: valve 65535 ticks 4294967295\nrecord 2: valve 0 ticks 1')"
run pulses -n 1 p.cfb log
expect "the last record" [ "$(tail -n +4 "$dir/out")" = "record 2: valve 0 ticks 1" ]
run pulses -n 0 p.cfb log
expect "no record" [ "$(wc -l <"$dir/out")" -eq 3 ]

cp p.cfb before
run pulse p.cfb log 1 0
expect "no ticks" refused 41
feed 'text' put p.cfb text
cp p.cfb before
run pulses p.cfb text
expect "no pulse stream" refused 40
run pulse p.cfb text 1 1
expect "no pulse stream to add to" refused 40
run pulse p.cfb log 65536 1
expect "no such valve" fault 2 "VALVE: at most 65535"
run pulse p.cfb log 1 4294967296
expect "too many ticks" fault 2 "TICKS: at most 4294967295"
run pulse p.cfb log one 1
expect "no number" fault 2 "VALVE"
expect "nothing was changed" same p.cfb before
