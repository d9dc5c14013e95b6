# shellcheck shell=sh disable=SC2154
L vgchange -ay vg
is 'it is activated' [ "$rc" = 0 ]
L dmsetup table
isnt 'no cache is made' said ' cache '
is 'what was written stays' same /dev/vg/main 0 20 40
is 'and what was written back' same /dev/vg/main 20 20 30
L vgchange -an vg
