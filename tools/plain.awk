# What walkprint printed, with its numbers in decimal (awk -f tools/decimal.awk -f tools/plain.awk): the length in line 1, and x, y, z and the lift of each
# waypoint. Counts, places and doors are decimal already. A refusal has no number in hex.
NR == 1 && $1 != "refused" { $5 = decimal($5) }
NR > 1 { for (i = 3; i <= 6; i++) $i = decimal($i) }
{ print }
