# Turns an LRAT proof of a solver into a refutation that lincs checks:
#
#     awk -v encoding=separation -f lrat-to-refutation.awk FORMULA.cnf PROOF.lrat
#
# FORMULA.cnf is what `lincs encode --encoding separation` wrote. Lemmas get new ids, without gaps; deletions are left out.
NR == FNR { if (FNR == 1) { count = $4; print "lincs-refutation 1 " encoding }; next }
ended || $2 == "d" { next }
{
    id[$1] = ++count
    line = count
    for (k = 2; $k != 0; k++) line = line " " $k
    line = line " 0"
    for (k++; $k != 0; k++) line = line " " ($k in id ? id[$k] : $k)
    print line " 0"
    ended = $2 == 0
}
