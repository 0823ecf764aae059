#!/usr/bin/env python3
"""Spells this repository's own definitions and lemmas as today's Rattle does: words in snake case, types and facts in camel case.

usage: python3 tools/respell.py [FOLDER]      FOLDER: the top of a checkout that /opt/rattle/port/port.py has turned

    zone-after -> zone_after, Always-kept -> AlwaysKept

It turns whole words in .antt, .rt and .edit files below crates/, comments too, but no text in quotes. It stops before it writes
if a new name stood in a file already beside the old one, since the two would fall together. A second run changes nothing.
"""

import os
import re
import sys

# The names that this repository gave, as they were spelled.
NAMES = """
After-says Agree-below Alarm-keeps Alarm-says All-read All-shown All-sized All-start All-step All-within Always-blamed
Always-kept Always-wrong At-rest Basin-says Begin-says By-alarm By-checks By-counts By-names By-span Close-says
Closed-form Difference-says Draft-says Empty-says Enter-says Event-says First-says Floored-all Floored-basin Has-taken
In-both Kept-by Kept-levels Less-possible Line-says Meet-says Meeting-reading Names-say New-says No-history
None-possible None-sharper Not-less-sure Not-wider Note-says Number-of Observe-says Observed-says Order-free
Order-shows-same Plant-says Read-says Reading-only-sharpens Ring-says Rings-of Row-says Same-answer Same-histories
Same-levels Shows-upper Sizes-hold Start-says Stays-so Step-says Take-says Takes-all Tells-empty Told-of True-of
Unbounded-above Unbounded-below Upper-end Widened-lent Worked-example Wrong-or-blamed Zero-diagonal above-canonical
above-datum above-end above-floored above-high above-holding above-through after-second after-third agree-histories
alarm-kept alarm-of alarm-rings all-before-map all-clear all-front all-of-size all-open all-pass-tells always-kept
and-of answer-of answered-once as-high-as-you-like as-widened asc-append asc-cons asc-first asc-one asc-rest at-0
at-100 at-2 at-bit at-itself at-most-once at-most-same at-most-within at-start basin-floored basin-index basin-refused
basin-there basins-refused basins-within before-event before-or before-reading before-step begun-empty begun-none
begun-once below-high below-holding below-itself below-low below-zero bit-all bit-and bit-number bit-rest bit-set
bit-small blamed-tells blamed-told both-none both-sized bound-in bound-is bound-of-code by-test canonical-at
canonical-same canonical-told carries-exchanged carries-later carries-reading chop-end chop-none chop-same chopped-by
clash-some close-floored closed-bounds closed-by closed-reach closed-sized closed-there closed-told closes-empty
closes-none closes-turned code-above code-chosen code-cond code-floored code-grown code-own code-smaller code-wider
code-zero column-all column-here column-more column-none column-other column-skip column-stays column-write
columns-more columns-none common-more common-push cond-smaller contradicts-empty converted-like count-either
count-fails count-fields count-holds count-more count-name count-numbers count-taken count-within countField
counted-once datum-low datum-possible datum-row decimal-marks detour-both detour-left detour-right diagonal-write
difference-datum difference-flip difference-is difference-same difference-sum digit-marks digits-next digits-parts
digits-some draft-refused each-done each-skip each-told end-at ends-plant ends-refused entered-once entries-same
entry-back entry-once event-refused exact-at exact-by failed-once fails-later fall-at fall-long fall-of fall-ok
fall-within fault-sets few-at few-gauges few-wrong filled-all filled-skip filled-write first-bad first-number
first-place first-refused first-row first-zone fits-minus floor-at floor-floored floor-j floor-kept floor-same
floor-smaller floored-at floored-datum floored-like follows-blamed follows-heeds follows-read follows-start
follows-step form-by from-complete from-ordered from-sound front-after front-all gap-cut gap-over gap-passed gauge-at
gauge-placed gauge-refused gauge-set gauge-there gauges-few going-none grown-at grown-holds grown-other grown-own
growth-is has-cases has-head has-later has-nothing heeds-blamed heeds-trusted high-ok history-of history-of-wrong
holds-all holds-larger holds-last holds-sum hung-of in-each in-each-more in-larger in-play in-same in-set is-empty
kept-basin kept-blamed kept-empty kept-found kept-reading kept-start larger-all larger-by larger-none largest-floor
largest-more largest-one largest-skip le-no-larger leads-back leads-exchanged leads-reordered least-of left-keeps
length-kept length-listing length-one lengths-refused less-is less-possible letters-taken level-exact level-spans
line-once listed-all listed-few listing-more long-enough looser-left looser-right lost-none lower-holds lowered-other
lowered-own mapped-none max-left max-right maxZ-one meet-holds meet-other meet-reading meet-refused meet-sized
meet-smaller meet-there meeting-reading met-with minus-fits more-counted more-is more-le most-at most-of name-decided
name-kept name-marks named-as names-told negative-empty negative-none neither-true never-errs never-sharper no-fault
no-faults no-history no-history-told no-larger no-larger-both no-larger-le no-larger-of no-larger-refl no-larger-trans
no-levels no-levels-cell no-levels-empty no-levels-sized no-levels-told no-sharper no-smaller nobody-at none-decided
none-few none-sharper none-sharper-than none-tells not-below not-both not-contradicts not-empty not-less-is not-number
not-text noted-gauge noted-once nothing-more number-all number-back number-below number-bits number-counted
number-exact number-fails number-ordered number-refused number-taken numbers-back numbers-kept numbers-same numeral-by
numeral-digits of-alarm of-cond of-each of-k of-listed of-listed-sets of-looser of-max of-names of-reading of-same
of-sharper of-size-more of-span one-fault-less one-fault-more only-put open-most open-ranges or-of or-other order-free
order-shows-same origin-below origin-holds origin-in origin-moves over-datum pair-fails pair-fields pair-holds
pair-name pair-numbers pair-refused pairFields part-before part-put part-within passed-through past-count past-gauge
place-within placed-10 placed-2 placed-3 placed-5 placed-8 placed-reading placed-taken placement-refused plant-refused
possible-before range-ok range-refused range-within ranges-of ranges-ok ranges-taken rate-of rate-refused rates-in
rates-of rates-ok rates-taken reach-above reach-below reaching-in read-fails read-followed reading-of reading-ok
reading-only-sharpens reading-refused reading-smaller readings-refused readingsAfter ready-not ready-room refusal-of relax-same
relax-sized relaxed-same relaxed-smaller relaxed-there request-refused resolved-more resolved-within rise-at rise-long
rise-of rise-ok rise-within roof-by roof-sized row-2 row-3 row-4 row-5 row-8 row-refused row-skip said-or-not
same-alarm same-canonical same-closed same-column same-history same-levels same-list same-lower same-relaxed
same-turns same-upper set-few set-of set-unique settled-all settled-empty settled-more settled-none sharper-decides
sharper-is sharper-left sharper-means sharper-no-larger sharper-one-of sharper-right shown-explained shown-line
shown-upper signed-marks signed-number signed-some size-counted size-refused size-taken sized-floor sized-more
sized-sum sized-zero sizes-hold some-levels some-low spaced-next spaced-plain spaced-words span-exact span-kept
spans-of split-bit stays-so step-canonical step-exact step-followed step-k step-m step-refused step-roof step-tame
steps-few steps-in steps-more steps-push steps-refused stepsAfter still-none still-there stray-of strays-of sum-commutes
sum-exact sum-holds sum-larger sum-monotone sum-never-sharper sum-no-larger sum-ordered sum-sized surer-led
table-refused take-least taken-all taken-both taken-skip tame-closed tells-empty tells-one test-is through-first
through-last through-now to-theory told-decides tops-more tops-skip total-sum track-reading track-step trajectory-of
triple-fails triple-fields triple-holds triple-name triple-numbers tripleFields turn-through turned-column
turned-either turned-row turned-smaller underway-all underway-more underway-none underway-skip upper-end
upper-end-least upper-end-same upper-holds when-refused when-taken widen-closed widen-lowest widen-other widened-holds
widened-lent widened-sized widened-there wider-canonical wider-same with-basins with-fault with-gauges with-past
with-places with-ranges with-rates with-without with-wrong within-limit without-levels word-ends words-over
worked-example written-alarm written-end written-plain written-span written-spells written-words wrong-carried
wrong-or-blamed zero-bound zero-meets zero-write zone-after zone-in zone-long zone-of zone-within
""".split()

WORD = re.compile(r'"(?:[^"\\\n]|\\.)*"|[^\W\d][\w\']*(?:-[\w\']+)*')

BARE = re.compile(r"(?<![\w.'-])[^\W\d][\w']*(?:-[\w']+)*")


def respelled(name):
    """A fact begins with a capital and is in camel case; any other name is in snake case."""
    if name[0].isupper():
        return "".join(part[0].upper() + part[1:] for part in name.split("-"))
    parts = re.sub(r"([a-z])([A-Z])", lambda m: m[1] + "_" + m[2].lower(), name)
    return parts.replace("-", "_")


NEW = {name: respelled(name) for name in NAMES}
# These lemmas would get the names of the words that they are about.
NEW |= {"bit-and": "bit_of_and", "count-fields": "fields_of_count", "pair-fields": "fields_of_pair", "triple-fields": "fields_of_triple"}


def files(top):
    for folder, dirs, names in os.walk(os.path.join(top, "crates")):
        dirs[:] = sorted(d for d in dirs if d != "out")
        for name in sorted(names):
            if name.endswith((".antt", ".rt", ".edit")):
                yield os.path.join(folder, name)


def main():
    top = sys.argv[1] if len(sys.argv) > 1 else "."
    assert len(set(NEW.values())) == len(NEW), "two names fall together"
    texts, together = {}, []
    for path in files(top):
        with open(path, encoding="utf-8") as file:
            texts[path] = file.read()
        # A field, a step or a module is named after a point, and a function of src/ may have the name of its word.
        words = set(BARE.findall(texts[path])) if path.endswith(".antt") else set()
        together += [f"{path}: {old} and {new}" for old, new in NEW.items() if old in words and new in words]
    if together:
        print("\n".join(together))
        raise SystemExit("these fall together: nothing was written")
    changed = 0
    for path, text in texts.items():
        turned = WORD.sub(lambda m: NEW.get(m[0], m[0]), text)
        if turned != text:
            changed += 1
            with open(path, "w", encoding="utf-8") as file:
                file.write(turned)
    print(f"respell: {len(NEW)} names, {changed} files changed")


main()
