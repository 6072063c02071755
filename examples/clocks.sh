#!/usr/bin/env bash
# Clocks: which instants of UTC and which times of local clocks belong together. Of each row of clocks.csv the instants from its beginning up to
# its end, which isn't one of them, become one tuple. Times are seconds since 1970, as if each clock showed UTC.
set -euo pipefail
program=${DEDALE:-./dedale}
questions=$(
  cat << 'end'
view Paris(utc, local) := Clock('Europe/Paris', utc, local);

-- Which local times of 2026 to 2028 don't exist in Paris? The clock jumps over them: from 2:00 to 3:00 on 29 March 2026,
-- on 28 March 2027 and on 26 March 2028.
query (local) : local >= 1767229200 and local < 1861923600 and not exists utc (Paris(utc, local));

-- Which occur twice? From 2:00 to 3:00 on 25 October 2026, on 31 October 2027 and on 29 October 2028.
query (local) : exists utc exists later (Paris(utc, local) and Paris(later, local) and utc < later);

-- When is Paris not 6 hours ahead of New York? In March and in autumn, as they don't change on the same day.
view NewYork(utc, local) := Clock('America/New_York', utc, local);
query (utc) : exists a exists b (Paris(utc, a) and NewYork(utc, b) and a - b != 21600);

-- When is it between 9:00 and 18:00 of 10 March 2026 in both? From 13:00 to 17:00 UTC.
query (utc) : exists a exists b (Paris(utc, a) and NewYork(utc, b)
  and a >= 1773133200 and a < 1773165600 and b >= 1773133200 and b < 1773165600);

-- Is Sydney ever less than 8 hours ahead of Paris?
ask exists utc exists a exists b (Paris(utc, a) and Clock('Australia/Sydney', utc, b) and b - a < 28800);

-- Has each zone one local time at each instant of these years?
ask forall zone text forall utc forall a forall b (Clock(zone, utc, a) and Clock(zone, utc, b) implies a = b);
ask forall zone text (exists utc exists local (Clock(zone, utc, local))
  implies forall utc (utc >= 1767225600 and utc < 1861920000 implies exists local (Clock(zone, utc, local))));
end
)
./dedale_tools import rows 'Clock(zone text, utc, local)' \
  'zone = {zone:text}, local = utc + {offset}, utc >= {from_utc}, utc < {to_utc}' < examples/data/clocks.csv |
  cat - <(echo "$questions") | "$program" | grep -v '^tuple '
