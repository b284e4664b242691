cd /tmp/s
for e in r_base r_new2; do nice -n 4 /usr/bin/time -f "$e load150k t1 %U user %S sys %e s %M KB" ./$e < load150000.jsonl >/dev/null; done
nice -n 4 valgrind --tool=callgrind --callgrind-out-file=/tmp/s/cgf.r_new2 ./r_new2 < load5000.jsonl > /dev/null 2> cgf.r_new2.log
for k in 1 2; do for e in r_base r_new2; do nice -n 4 /usr/bin/time -f "$e load50k t1 %U user %S sys %e s %M KB" ./$e < load50000.jsonl >/dev/null; nice -n 4 /usr/bin/time -f "$e load50k t4 %U user %S sys %e s %M KB" ./$e --threads 4 < load50000.jsonl >/dev/null; done; done
for e in r_base r_new2; do nice -n 4 /usr/bin/time -f "$e load150k t4 %U user %S sys %e s %M KB" ./$e --threads 4 < load150000.jsonl >/dev/null; nice -n 4 /usr/bin/time -f "$e count t1 %U user %S sys %e s %M KB" ./$e < count.jsonl >/dev/null; nice -n 4 /usr/bin/time -f "$e table t1 %U user %S sys %e s %M KB" ./$e < table.jsonl >/dev/null;  nice -n 4 /usr/bin/time -f "$e table t4 %U user %S sys %e s %M KB" ./$e --threads 4 < table.jsonl >/dev/null; done
echo done
