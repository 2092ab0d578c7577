# A stand-in for the two programs: one answer a line, with a fault planted where the first option says.
#   none        no fault
#   wait N      the Nth `r wait` is refused
#   var         `r wait` is refused once a variable was added and `r new` was said after it
#   die N       it ends with status 7 after N answers
#   twice N     the Nth line gets two answers
#   sums N      sums are N larger
#   touch       a sum after a refused line is another one
#   status N    it ends with status N
fault=$1
at=$2
lines=0 waits=0 vars=0 armed=0 touched=0
while IFS= read -r line || [ -n "$line" ]; do
    lines=$((lines + 1))
    answer=ok
    case $line in
    "r wait "*)
        waits=$((waits + 1))
        [ "$fault" = wait ] && [ $waits -eq "$at" ] && answer="refused 9"
        [ "$fault" = var ] && [ $armed -eq 1 ] && answer="refused 26"
        ;;
    "g var "*) vars=$((vars + 1)) ;;
    "r new") [ $vars -gt 0 ] && armed=1 ;;
    "r list "*) answer=end ;;
    "r can "*) answer=yes ;;
    "r waiting") answer=no ;;
    "r show") answer="places 0 vars clocks" ;;
    "g process "*) answer="refused 3" ; [ "$fault" = touch ] && touched=1 ;;
    "sum g")
        answer="ok $((100 + touched))"
        [ "$fault" = sums ] && answer="ok $((100 + at))"
        ;;
    "" | " "*) answer="bad line" ;;
    esac
    echo "$answer"
    [ "$fault" = twice ] && [ $lines -eq "$at" ] && echo "$answer"
    [ "$fault" = die ] && [ $lines -eq "$at" ] && exit 7
done
[ "$fault" = status ] && exit "$at"
exit 0
