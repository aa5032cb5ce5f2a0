# Joins what mc33 printed for the blocks of an input, in their order, to what one run prints for the whole: the
# names once, up to the first refusal, and there the line's number in the whole. Before the first refusal each line
# of the input has one line here, so that number is the refusal's own place.
refused { next }
$1 == "refused" { print $1, $2, lines + 1; refused = 1; next }
$1 != "code" || lines == 0 { print; lines++ }
