# SPDX-License-Identifier: MIT OR Apache-2.0
# Tables A and B as C arrays, out of the lines that coefficients.awk prints: for the plain C of bench/.
$2 == 0 && $3 == 0 { print "static const double " $1 "[10][9] = {" }
$3 == 0 { print "{" }
{ print $5 "," }
$3 == 8 { print "}," }
$2 == 9 && $3 == 8 { print "};" }
