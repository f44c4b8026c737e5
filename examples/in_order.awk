# Gives a script one order on threads, that of its lines. Where a line is of another actor than the one before it, the earlier actor
# posts a name and the later one awaits it:
#
#     awk -f examples/in_order.awk examples/conflict.omid > /tmp/ordered.omid
#     omid run < /tmp/ordered.omid
#
# What the stages of a node still do behind a `submit` keeps no order. A script that posts names of this form itself is not for it.
$1 ~ /^(clock|janitor|[a-h]|s[0-9]+)$/ {
    if (earlier != "" && earlier != $1) {
        passed++
        print earlier, "post", "passed-" passed
        print $1, "await", "passed-" passed
    }
    earlier = $1
}

{ print }
