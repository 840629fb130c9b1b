# The part of docs/INSTRUCTIONS.md that says what each instruction does, for a manual page: a paragraph in place of each row of a table.
/^This page is for/,/^$/d
/^## Encodings$/,$d
/^| Instructions | Effect | Formula |$/,/^$/ {
    /^| Instructions |/d
    /^|---/d
    s/^| \(`[^|]*`\) | \(.*\) | \(.*\) |$/\1: \2 \3\n/
    s/\\|/|/g
}
