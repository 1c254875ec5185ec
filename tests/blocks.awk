# Takes the command blocks out of a document: awk -v out=FOLDER -f blocks.awk DOCUMENT writes the k-th block marked sh as FOLDER/k.sh, and the block
# marked text that follows it, with nothing but empty lines between, as FOLDER/k.text; FOLDER/k.line holds the number of the sh block's first line.
!inside && /^```sh$/ {
    k = sprintf("%03d", ++count)
    inside = out "/" k ".sh"
    printf "" >inside
    print FNR >(out "/" k ".line")
    next
}
!inside && /^```text$/ && waits {
    inside = out "/" k ".text"
    printf "" >inside
    waits = 0
    next
}
!inside && /^```/ { inside = "/dev/null"; waits = 0; next }
inside && /^```$/ { waits = inside ~ /\.sh$/; inside = ""; next }
inside { print >inside; next }
NF { waits = 0 }
