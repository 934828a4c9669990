# The spread of the generated sequences, from a line for each: the comment line that oracle/gen writes, and its axis list behind it.
# Of all how many codes their lists have; of curves a line for each motion too, and how many have so many channels.
# the numbers of the layout that it counts by, and the fewest codes of a list that is called long
BEGIN { least_long = 11; most_codes = 21; most_channels = 16; first_second = 10; last_second = 15 }
# counts how many of a list there are, and whether second axes, A2 to W2, are among them
function take_list(text, n, i, codes, second) {
    n = text == "-" ? 0 : split(text, codes, ",")
    for (i = 1; i <= n; i++) second += codes[i] >= first_second && codes[i] <= last_second
    lists[n]++
    long += n >= least_long
    seconds += second > 0
}
function take(name, value) {
    if (!((motion, name) in least) || value < least[motion, name]) least[motion, name] = value
    if (!((motion, name) in most) || value > most[motion, name]) most[motion, name] = value
}
# how often each number from `from` to `to` is in `times`
function by_number(times, from, to, n, text) {
    for (n = from; n <= to; n++) if (n in times) text = text (text == "" ? "" : ", ") n ": " times[n]
    return text
}
# a sequence that comes twice, at two tolerances, is one
$2 " " $3 " " $4 == last { next }
{
    last = $2 " " $3 " " $4
    sequences++
    take_list($NF)
}
$2 == "curves" {
    for (i = 5; i < NF; i += 2) of[$i] = $(i + 1) + 0
    motion = of["motion"]
    curves[motion]++
    drawn++
    channels[of["channels"]]++
    take("points", of["points"])
    take("degree", of["degree"])
    take("channels", of["channels"])
    take("samples", of["samples"])
    weighted[motion] += of["weights"] > 0
    repeating[motion] += of["repeated"] > 0
}
END {
    printf "lists: %d of %d sequences have %d to %d codes, %d have second axes; by codes %s\n", long, sequences, least_long, most_codes, \
        seconds, by_number(lists, 0, most_codes)
    words[5] = "ASPLINE"; words[6] = "BSPLINE"; words[7] = "CSPLINE"
    for (motion = 5; motion <= 7; motion++) if (motion in curves) {
        printf "%s %d: points %d to %d, channels %d to %d, ", words[motion], curves[motion], \
            least[motion, "points"], most[motion, "points"], least[motion, "channels"], most[motion, "channels"]
        if (motion == 6) printf "degrees %d to %d, weighted %d, ", least[6, "degree"], most[6, "degree"], weighted[6]
        printf "with repeated points %d, samples %d to %d\n", repeating[motion], \
            least[motion, "samples"], most[motion, "samples"]
    }
    if (drawn) printf "curves by channels %s\n", by_number(channels, 1, most_channels)
}
