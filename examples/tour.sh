#!/bin/sh
# Prints the script of a brevet: eighty hours on the bicycle with a sample every second, a commit every two minutes
# and a lap every hour.
time=1000000000
end=$((time + 288000))
echo "start $time 7 cycling"
while [ "$time" -le "$end" ]; do
    second=$((time - 1000000000))
    echo "sample $time alt=$((2700 + second % 900)) hr=$((110 + second % 60)) dist=$((second * 780)) speed=7800 power=$((150 + second % 120))"
    [ $((second % 120)) -eq 119 ] && echo commit
    [ $((second % 3600)) -eq 3599 ] && echo "lap $time"
    time=$((time + 1))
done
echo "stop $end"
