# The programs and the configurations that the scripts beside it measure: functions that print them. bench/common.sh reads
# it in.

# The program of nested.c: thirty conditionals inside one another, each on one bit.
nested_program() {
    echo 'struct Packet { int x; int y; };'
    echo 'int count;'
    printf 'void nested(struct Packet pkt) {\n  pkt.y = 0;\n'
    for ((k = 0; k < 30; k++)); do
        printf '  if ((pkt.x >> %d & 1) == 0) { pkt.y = pkt.y * 3 + %d; count = count + 1;\n' "$k" "$k"
    done
    for ((k = 0; k < 30; k++)); do printf '}'; done
    printf '\n}\n'
}

# A program whose configuration has so many atoms, all but one without state, in few stages: a tree of operators over as
# many leaves as are wanted.
wide_program() {
    awk -v atoms="$1" 'BEGIN {
        split("+ ^ - * | & << >> < ==", of_leaf, " ")
        split("+ ^ - |", of_node, " ")
        left = int(atoms / 2)
        for (k = 0; k < left; k++)
            term[k] = "(pkt." (k % 2 ? "x" : "y") " " of_leaf[k % 10 + 1] " " k + 2 ")"
        while (left > 1) {
            made = 0
            for (k = 0; k + 1 < left; k += 2)
                term[made++] = "(" term[k] " " of_node[node++ % 4 + 1] " " term[k + 1] ")"
            if (left % 2) term[made++] = term[left - 1]
            left = made
        }
        print "struct Packet { int x; int y; int z; };"
        print "int packets;"
        print "void wide(struct Packet pkt) { packets = packets + 1; pkt.z = " term[0] "; }"
    }'
}

# Eight chains of 30 operators, or of so many, and eight sums: 248 atoms in 30 stages.
deep_program() {
    awk -v links="${1:-30}" 'BEGIN {
        split("+ ^ - *", operator, " ")
        print "struct Packet { int a; int b; int c; int d; int e; int f; int g; int h; };"
        for (k = 0; k < 8; k++) print "int sum_" substr("abcdefgh", k + 1, 1) ";"
        print "void deep(struct Packet pkt) {"
        for (k = 0; k < 8; k++) {
            name = substr("abcdefgh", k + 1, 1)
            print "  sum_" name " = sum_" name " + pkt." name ";"
            for (link = 0; link < links; link++)
                print "  pkt." name " = pkt." name " " operator[(link + k) % 4 + 1] " " 2 * link + k + 3 ";"
        }
        print "}"
    }'
}

loose_program() { # so many statements in 64 chains
    printf 'struct P {'
    for ((k = 0; k < 64; k++)); do printf ' int f%d;' "$k"; done
    printf ' };\nvoid loose(struct P p) {\n'
    for ((k = 0; k < $1; k++)); do printf '  p.f%d = p.f%d + %d;\n' $((k % 64)) $((k % 64)) "$k"; done
    printf '}\n'
}

class_program() { # the flanks, and all other statements between them
    printf 'struct P { int x; };\nint s;\nvoid class(struct P p) {\n'
    for ((k = 2; k < $1; k++)); do printf '  s = s * %d;\n' "$k"; done
    printf '}\n'
}

chain_program() { # each statement uses the one before it
    printf 'struct P { int x; };\nvoid chain(struct P p) {\n'
    for ((k = 0; k < $1; k++)); do printf '  p.x = p.x + %d;\n' "$k"; done
    printf '}\n'
}

choices_program() { # so many assignments behind 62 conditionals, each in the `else` of the one before
    printf 'struct P { int x; };\nint s;\nvoid choices(struct P p) {\n'
    for ((k = 0; k < 62; k++)); do printf 'if (p.x == %d) { } else ' "$k"; done
    printf '{'
    for ((k = 0; k < $1; k++)); do printf 's=%d;' "$k"; done
    printf '}\n}\n'
}

# legal CONTAINERS STAGES: 64 fields, 32 arrays and so many containers; each stage has an atom with state and its share of
# operators, each of which writes a container of its own, and reads one that was written so many stages before; 0 for a field
legal() {
    awk -v containers="$1" -v stages="$2" 'BEGIN {
        print "banzai,1"; print "target,pairs-large"
        for (k = 0; k < 64; k++) print "field,f" k
        for (k = 0; k < 32; k++) print "array,a" k ",1024,0"
        print "containers," containers
        next_container = 64
        for (s = 1; s <= 32; s++) {
            print "stage," s
            last = 64 + int((containers - 64) * s / 32)
            back = int((containers - 64) / 32) * stages
            while (next_container < last) {
                read = back && next_container - back >= 64 ? next_container - back : next_container % 64
                print "bin,c" next_container ",add,c" read ",#-2000000000"
                next_container++
            }
            print "atom,1"
            print "slot," s - 1 ",c" s ",-,-,if,lt,c1,s0,if,eq,c2,#7,put,c3,add,c4,sub,c5"
        }
        for (k = 0; k < 64; k++) print "out,c" k
        print "end"
    }'
}

# so many bytes, or a few less: operators in one stage
long() {
    awk -v bytes="$1" 'BEGIN {
        text = "banzai,1\ntarget,pairs-large\nfield,x\ncontainers,2048\nstage,1\n"
        printf "%s", text; size = length(text)
        rest = ""
        for (s = 2; s <= 32; s++) rest = rest "stage," s "\n"
        rest = rest "out,c0\nend\n"
        for (k = 1; size + length(line = "bin,c" 1000 + k % 1000 ",add,c0,#" k "\n") + length(rest) <= bytes; k++) {
            printf "%s", line; size += length(line)
        }
        printf "%s", rest
    }'
}

# Sixteen assignments of a number of six digits, to so many fields.
printed_program() {
    printf 'struct P { int x;'
    for ((k = 0; k < $1; k++)); do printf ' int f%d;' "$k"; done
    printf ' };\nvoid printed(struct P p) {\n'
    for ((k = 0; k < 16; k++)); do printf '  p.f%d = 123456;\n' $((k % $1)); done
    printf '}\n'
}

# The program that `selfrun` compiles for all templates but `write`.
selfrun_program() {
    echo 'struct Packet { int key; int val; int seen; }; int acc[64];'
    echo 'void selfrun(struct Packet pkt) { acc[pkt.key] = acc[pkt.key] + pkt.val; pkt.seen = acc[pkt.key]; }'
}

# Makes the programs that run on a machine, and puts them into `rows`, a line for each: a name, the target, the program, the
# heading of its traces, and the same work by hand, of `run` and of `serial`, or `-`. ROWS names those that are wanted.
machines() {
    wide_program 240 >wide.dom
    deep_program >deep.dom
    rows="acc raw-small $top/examples/acc.dom gap,x acc running_sum
flowlet praw-medium $top/examples/flowlet.dom gap,sport,dport,arrival flowlet_run flowlet
conga pairs-medium $top/examples/conga.dom gap,dst,util,path conga conga_serial
wide raw-large wide.dom gap,x,y - -
deep raw-large deep.dom gap,a,b - -"
    [ -z "${ROWS:-}" ] || rows="$(printf '%s\n' "$rows" | grep -E "^(${ROWS// /|}) ")"
}
