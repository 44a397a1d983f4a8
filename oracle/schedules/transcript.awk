# The transcript that NAME.expected stands for: without the indented lines about
# worlds, and with its ranges written out.
/^  / { next }
$1 !~ /-/ { print; next }
{
    split($1, range, "-")
    rest = substr($0, length($1) + 1)
    for (number = range[1] + 0; number <= range[2] + 0; number++) print number rest
}
