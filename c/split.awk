# SPDX-License-Identifier: ISC
# Splits the assembly text of a build into files, so that an archive of them gives a linker what a
# program's calls reach and no more, without any option:
#
#     cc -E TEXT.S | awk -v folder=FOLDER -v build=v2_ -f c/split.awk
#
# A file has the functions and constants that the same calls reach, and what one call alone reaches
# is in the file of its name. A label that another file names becomes a global one, hidden from
# other libraries, with the build and `yz.` before its name.

/^#/ || NF == 0 || /^[ \t]*\.ident/ { next }
/^[ \t]*\.(arch|cpu)/ { before = before $0 "\n" }
/^[ \t]*\.section/ {
    is_code = !/note\.GNU-stack/
    is_pool = /"aM/
    opening = $0
    if (is_code && !is_pool) add_piece()
    next
}
!is_code { next }
/^[ \t]*\.globl/ { called[++calls] = $2 }
# A constant of a pool is a piece by itself, with the alignment of the pool.
is_pool && /^[ \t]*\.p2align/ { opening = opening "\n" $0 }
is_pool && /^[ \t]*\.(p2align|type|size)/ { next }
/^[A-Za-z_.][A-Za-z0-9_.]*:/ {
    if (is_pool) add_piece()
    home[label_of($0)] = pieces
}
{ add_line($0) }

function add_line(line) { text[++lines] = line; owner[lines] = pieces }
function add_piece() { pieces++; add_line(opening) }
function label_of(line) { sub(/:.*/, "", line); return line }

# Where the next name of a line is, in RSTART and RLENGTH.
function has_name(line) { return match(line, /[A-Za-z_.][A-Za-z0-9_.]*/) }

# Notes what of other pieces a line names.
function note_named(piece, line,    name) {
    while (has_name(line)) {
        name = substr(line, RSTART, RLENGTH)
        line = substr(line, RSTART + RLENGTH)
        if (name in home && home[name] != piece) named[piece] = named[piece] " " name
    }
}

# Notes that a call reaches a piece, and what this one names.
function note_reached(piece, call,    names, at) {
    if ((piece, call) in seen) return
    seen[piece, call]
    reached_by[piece] = reached_by[piece] " " call
    for (at = split(named[piece], names, " "); at > 0; at--) note_reached(home[names[at]], call)
}

# Notes what a piece names in other files.
function note_shared(piece,    names, at) {
    for (at = split(named[piece], names, " "); at > 0; at--)
        if (reached_by[home[names[at]]] != reached_by[piece]) is_shared[names[at]]
}

# The file of a piece, which is begun with its first piece.
function file_of(piece,    by, names) {
    by = reached_by[piece]
    if (by in file) return file[by]
    file[by] = split(by, names, " ") == 1 ? names[1] : sprintf("%sshared%02d", build, ++shared)
    file[by] = folder "/" file[by] ".s"
    printf "%s\t.section .note.GNU-stack,\"\",%%progbits\n", before >file[by]
    return file[by]
}

function shown(name) { return build "yz" (name ~ /^\./ ? "" : ".") name }

# A line with the names of what is shared.
function renamed(line,    out, name) {
    while (has_name(line)) {
        name = substr(line, RSTART, RLENGTH)
        out = out substr(line, 1, RSTART - 1) (name in is_shared ? shown(name) : name)
        line = substr(line, RSTART + RLENGTH)
    }
    return out line
}

function write_line(line, file,    name) {
    name = label_of(line)
    if (name in is_shared) printf "\t.globl %s\n\t.hidden %s\n", shown(name), shown(name) >file
    print renamed(line) >file
}

END {
    for (at = 1; at <= lines; at++) note_named(owner[at], text[at])
    for (at = 1; at <= calls; at++) note_reached(home[called[at]], called[at])
    for (at = 1; at <= pieces; at++) if (at in reached_by) note_shared(at)
    for (at = 1; at <= calls; at++) delete is_shared[called[at]]
    for (at = 1; at <= lines; at++)
        if (owner[at] in reached_by) write_line(text[at], file_of(owner[at]))
}
