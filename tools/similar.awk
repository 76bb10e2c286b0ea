# Writes the names that are like a word, each in a line and the likest last, as the program finds those that it proposes:
# those whose Jaro similarity to the word is above 0.7.
#
#     awk -f similar.awk -- WORD NAME ..
#
# The word is ASCII: what a letter is differs between awks else.

# How like two texts are, from 0 to 1.
function likeness(word, name,    reach, common, other, differing, taken, i, j) {
    # of so many letters none is similar enough, whichever they are
    if (length(word) > 10 * length(name)) return 0
    reach = int((length(word) > length(name) ? length(word) : length(name)) / 2) - 1
    if (reach < 0) reach = 0
    for (i = 1; i <= length(word); i++)
        for (j = i > reach ? i - reach : 1; j <= i + reach && j <= length(name); j++)
            if (!(j in taken) && substr(word, i, 1) == substr(name, j, 1)) {
                taken[j]
                common = common substr(word, i, 1)
                break
            }
    if (common == "") return 0
    for (j = 1; j <= length(name); j++) if (j in taken) other = other substr(name, j, 1)
    for (i = 1; i <= length(common); i++) differing += substr(common, i, 1) != substr(other, i, 1)
    i = length(common)
    return (i / length(word) + i / length(name) + (i - int(differing / 2)) / i) / 3
}

BEGIN {
    for (i = 2; i < ARGC; i++) {
        like = likeness(ARGV[1], ARGV[i])
        if (like <= 0.7) continue
        for (at = ++count; at > 1 && likes[at - 1] > like; at--) {
            likes[at] = likes[at - 1]
            names[at] = names[at - 1]
        }
        likes[at] = like
        names[at] = ARGV[i]
    }
    for (i = 1; i <= count; i++) print names[i]
}
