# From a disassembly: where each block of the proved reader and writer begins. That is where a function begins, where a jump leads, and
# what stands behind a jump or a return. Rattle's functions have names with :: in them, which a Rust program's have not.
function ours(name) { return name ~ /::|^<(grain|proved)_(read|write)/ }
/^[0-9a-f]+ <.*>:$/ { inside = ours($2); leads = 1; next }
!inside || $1 !~ /^[0-9a-f]+:$/ || $2 ~ /^(nop|data16|cs)/ { next }
{
    if (leads) print substr($1, 1, length($1) - 1)
    leads = $2 ~ /^(j|ret|ud2)/
    if ($2 ~ /^j/ && $3 !~ /^\*/ && ours($4)) print $3
}
