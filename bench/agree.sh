#!/bin/sh
# Whether a store that threads share answers as a plain list of tuples does, call by call in the order of their places. Measures
# nothing. Build first: bindings/build.sh
#
#     sh bench/agree.sh [SPECIFICATION..]
#
# peers/agree.c makes CALLS random calls a thread, alone, as groups and in open groups, by one thread and by four, for each of SEEDS
# seeds, over few values (so that much is refused) and over more. Without words it does so for the specifications of examples/, for
# split.relc, and for those below: edges that meet in one node, lists, keys of several columns, singletons, texts, ranges, updates, and an
# edge that no other determines. Its last line is 'N passed, M failed'.
here=$(CDPATH= cd -- "$(dirname "$0")" && pwd)
library=$here/../bindings/out
if [ ! -f "$library/librelc.a" ]; then
    echo "agree.sh: there is no $library/librelc.a. Make it first: bindings/build.sh" >&2
    exit 1
fi
folder=$(mktemp -d) || exit 1
trap 'rm -rf "$folder"' EXIT
trap 'exit 1' HUP INT TERM
${CC:-cc} -std=c11 -D_POSIX_C_SOURCE=200809L -O2 -Wall -Wextra -I"$here/../bindings/c" -o "$folder/agree" "$here/peers/agree.c" \
    "$library/librelc.a" -lpthread || exit 1

# writes what it reads, a specification, into the folder
specification() {
    cat > "$folder/$1.relc"
}

# two paths to one node, where both keys are known
specification diamond <<'END'
relc 2
col src num
col dst num
col weight num
fd src dst -> weight
node root
node u src
node v dst
node w src dst weight
edge e1 root u hash src
edge e2 u w ordered dst
edge e3 root v hash dst
edge e4 v w hash src
lock k1 8 src
lock k2 4 dst
place e1 k1
place e2 k1
place e3 k2
place e4 k2
op ins insert src dst
op del remove src dst
op set update src dst
op succ query src -> dst weight
op pred query dst -> src weight
op find query src dst -> weight
op heavy query src : weight -> dst
op near query dst : src weight -> weight src
end
END

# one path, by source
specification source <<'END'
relc 2
col src num
col dst num
col weight num
fd src dst -> weight
node root
node u src
node w src dst
node z src dst weight
edge e1 root u hash src
edge e2 u w ordered dst
edge e3 w z singleton weight
lock k1 8 src
lock k2 4 src
place e1 k1
place e2 k2
place e3 k2
op ins insert src dst
op del remove src dst
op set update src dst
op succ query src -> dst weight
op find query src dst -> weight
op all query -> src dst
end
END

# a chain of three containers, the last a list, and a key of two columns
specification chain <<'END'
relc 2
col day num
col room num
col hour num
col guest num
fd day room hour -> guest
node root
node d day
node r day room
node h day room hour guest
edge e1 root d hash day
edge e2 d r list room
edge e3 r h list hour guest
lock k1 4 day
place e1 k1
place e2 k1
place e3 k1
op book insert day room hour
op free remove day room hour
op move update day room hour
op who query day room hour -> guest
op free_at query day hour -> room
op plan query day : hour -> room hour guest
end
END

# keys of two columns and of three
specification wide <<'END'
relc 2
col a num
col b num
col c num
col d num
fd a b c -> d
fd d -> a
node root
node p a b
node q a b c d
node s d a
edge e1 root p hash a b
edge e2 p q hash c d
edge e3 root s hash d a
edge e4 s q list b c
lock k1 8 a b
lock k2 4 d
place e1 k1
place e2 k1
place e3 k2
place e4 k2
op ins insert a b c
op del remove a b c
op two query a b -> c d
op by query d -> a b c
op part query a : b c -> d
end
END

# no dependency: a tuple is its own key
specification pairs <<'END'
relc 2
col left num
col right num
node root
node l left
node lr left right
node r right
node rl left right
edge e1 root l hash left
edge e2 l lr hash right
edge e3 root r hash right
edge e4 r rl list left
lock k1 8 left
lock k2 8 right
place e1 k1
place e2 k1
place e3 k2
place e4 k2
op ins insert left right
op del remove left right
op of query left -> right
op to query right -> left
op has query left right -> right left
op low query : left right -> left right
end
END

# a seat is a key of its own; a guest may take another
specification moves <<'END'
relc 2
col id num
col name num
col seat num
fd id -> name seat
fd seat -> id
node root
node p id name seat
node q id seat
edge e1 root p hash id
edge e2 root q hash seat
lock k1 4 id
lock k2 4 seat
place e1 k1
place e2 k2
op add insert id
op leave remove id
op move update id
op byseat query seat -> id
op byid query id -> name seat
end
END

if [ $# -eq 0 ]; then
    set -- "$here"/../examples/*.relc "$here/split.relc" "$folder"/*.relc
fi
passed=0
failed=0
for text in "$@"; do
    for seed in $(seq "${SEEDS:-3}"); do
        for form in "1 4 0" "4 4 0" "1 12 3" "4 12 0" "4 40 256"; do
            if "$folder/agree" "$text" "$seed" "${CALLS:-4000}" $form; then passed=$((passed + 1)); else
                failed=$((failed + 1))
                echo "failed: $text $seed $form" >&2
            fi
        done
    done
done
echo "$passed passed, $failed failed"
[ "$failed" -eq 0 ]
