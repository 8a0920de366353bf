# SPDX-License-Identifier: MIT
# Prints the word that is nearest to a mistyped one: at most two mistakes, in at most half of its letters. Prints an empty line if
# no word is, or if two are as near:
#   awk -f nearest.awk -- MISTYPED WORD..

function least(one, other) { return one < other ? one : other }

# Whether the letters before these two places are the same two, swapped.
function swapped(one, i, other, j) {
  return i > 1 && j > 1 && substr(one, i, 1) == substr(other, j - 1, 1) && substr(one, i - 1, 1) == substr(other, j, 1)
}

# How many letters have to be put in, left out, changed, or swapped with the next, to make one word of the other.
function distance(one, other,    i, j, cost) {
  for (i = 0; i <= length(one); i++) far[i, 0] = i
  for (j = 0; j <= length(other); j++) far[0, j] = j
  for (i = 1; i <= length(one); i++)
    for (j = 1; j <= length(other); j++) {
      cost = substr(one, i, 1) != substr(other, j, 1)
      far[i, j] = least(least(far[i - 1, j], far[i, j - 1]) + 1, far[i - 1, j - 1] + cost)
      if (swapped(one, i, other, j)) far[i, j] = least(far[i, j], far[i - 2, j - 2] + 1)
    }
  return far[length(one), length(other)]
}

BEGIN {
  best = 3
  if (length(ARGV[1]) > 20) exit
  for (n = 2; n < ARGC; n++) {
    now = distance(ARGV[1], ARGV[n])
    if (2 * now > least(length(ARGV[1]), length(ARGV[n])) || now > best) continue
    near = now < best ? ARGV[n] : ""
    best = now
  }
  print near
}
