# Puts counters into a copy of the original, at the places that document 01 counts.
# The answers of the copy stay those of the original, and the oracle checks that too.
# `build` checks how many places were changed, since sed says nothing when a line is not there.

# a round of a maximal suffix pass, forward and reverse
s/while let Some(&a) = arr.get(right + offset) {/& ::tally::round();/
s/while right + offset < n {/& ::tally::round();/

# the pairs of step 2 of preparing
s/if &needle\[\.\.crit_pos\] == &needle\[period\.\. period + crit_pos\] {/if ::tally::equal(\&needle[..crit_pos], \&needle[period.. period + crit_pos]) {/

# a fingerprint test
s/if !self\.byteset_contains(/::tally::test(); &/

# a needle byte set against a haystack byte, in a window and in a one-byte scan
s/if needle\[i\] != haystack\[/::tally::pair(); &/
s/memchr::memchr(pattern\[0\], text)/::tally::memchr(pattern[0], text)/
s/memchr::memrchr(pattern\[0\], text)/::tally::memrchr(pattern[0], text)/
