# Gives a login the variables that the node keeps, where /etc/default/nimchout-node says VARIABLES=yes; see nimchout-host(5).
[ ! -x /usr/lib/nimchout/variables ] || eval "$(/usr/lib/nimchout/variables export 2> /dev/null)"
