#!/usr/bin/env python3
"""respell: brings this repository's own definitions and lemmas to today's spelling: words in snake case.

Run once, at the top, after the kit's port.py. It goes by whole names, in clauses, specs/, proofs/ and must-fail/, and in
the names between backquotes of README.md and docs/. Functions of src/ and texts are not touched: none has such a name.
"""
import re
import sys
from pathlib import Path

# old and new, one pair a line
NAMES = """
above-decides above_decides
above-last above_last
above-none above_none
aboveAll above_all
actionOf action_of
addAnswer add_answer
afterAdd after_add
afterRemove after_remove
all-limits all_limits
all-messages all_messages
all-removed all_removed
allOnce all_once
and-true and_true
any-back any_back
any-exists any_exists
any-so any_so
ascend-push ascend_push
ascend-removed ascend_removed
bidOf bid_of
bidWith bid_with
bidsIn bids_in
blockFault block_fault
blocks-written blocks_written
blocksBytes blocks_bytes
blocksOf blocks_of
both-none both_none
by-cent by_cent
byAction by_action
byCancel by_cancel
byMessage by_message
bySecond by_second
cancelOf cancel_of
capacityIn capacity_in
causeOf cause_of
centsOf cents_of
contentsOf contents_of
drop-appended drop_appended
drop-at-most drop_at_most
drop-back drop_back
ends-within ends_within
fault-lasts fault_lasts
field-written field_written
fieldsIn fields_in
firstFault first_fault
folded-min folded_min
folded-picks folded_picks
followedBy followed_by
four-parts four_parts
from-here from_here
greatest-from-0 greatest_from_0
greatest-kept greatest_kept
greatest-picks greatest_picks
has-decides has_decides
has-none has_none
hasNumber has_number
header-there header_there
here-and-after here_and_after
higher-above higher_above
highest-more highest_more
highest-of highest_of
kept-all kept_all
kept-others kept_others
last-is last_is
lastNumber last_number
lasts-fault lasts_fault
least-picks least_picks
length-bytesOf length-bytes_of
lies-by lies_by
limit-all limit_all
limitTo limit_to
long-block long_block
long-blocks long_blocks
long-fault long_fault
long-lasts long_lasts
long-more long_more
lower-below lower_below
lowest-of lowest_of
max-kept max_kept
max-kept-at max_kept_at
messageAt message_at
messageOf message_of
messagesAt messages_at
messagesFrom messages_from
no-block-fault no_block_fault
no-fault no_fault
none-past-fault none_past_fault
none-past-last none_past_last
none-removed none_removed
none-up-to none_up_to
numberWith number_with
numbered-plain numbered_plain
numberedFrom numbered_from
ofKind of_kind
one-cent one_cent
one-removed one_removed
orAbsent or_absent
over-shown over_shown
packetBytes packet_bytes
packetFault packet_fault
packetOf packet_of
past-header past_header
pendingIn pending_in
priceSize price_size
priceTime price_time
reads-back reads_back
remove-found remove_found
remove-none remove_none
removeAnswer remove_answer
removed-found removed_found
rest-shorter rest_shorter
same-faults same_faults
same-field same_field
same-message same_message
same-messages same_messages
same-packetFault same_packet_fault
same-value same_value
sightBy sight_by
some-none some_none
sound-after-add sound_after_add
sound-after-remove sound_after_remove
sound-push sound_push
sound-removed sound_removed
soundIn sound_in
soundOnce sound_once
sum-kept-at sum_kept_at
termsOf terms_of
toCome to_come
token-here token_here
token-other token_other
true-false true_false
units-level units_level
units-more units_more
units-none units_none
unitsAt units_at
unitsFrom units_from
unitsOf units_of
unlessFault unless_fault
whole-shown whole_shown
whole-there whole_there
"""

# these the kit's script turns itself in the sources, so that here they are only turned in the pages
TURNED = """
all-back all_back
and-assoc and_assoc
blockAt block_at
blockOf block_of
by-parts by_parts
byOrder by_order
bytesOf bytes_of
countOf count_of
either-way either_way
ends-by ends_by
fieldsOf fields_of
firstOf first_of
fits-after fits_after
goes-on goes_on
inRange in_range
kindOf kind_of
laid-from laid_from
laid-out laid_out
nameOf name_of
none-before none_before
orElse or_else
orderOf order_of
reads-only reads_only
rest-back rest_back
same-answer same_answer
same-block same_block
same-end same_end
same-more same_more
secondOf second_of
sideOf side_of
sightOf sight_of
sound-none sound_none
stateOf state_of
sum-kept sum_kept
takenOf taken_of
value-written value_written
wordsOf words_of
"""

PAIRS = dict(line.split() for line in (NAMES + TURNED).split("\n") if line)
NAME = re.compile(r"(?<![\w'\-])(?:" + "|".join(sorted(map(re.escape, PAIRS), key=len, reverse=True)) + r")(?![\w'\-])")


def respelled(text):
    return NAME.sub(lambda found: PAIRS[found.group()], text)


def quoted(text):
    return re.sub(r"`[^`\n]+`", lambda found: respelled(found.group()), text)


def main():
    top = Path(sys.argv[1] if len(sys.argv) > 1 else ".")
    files = [p for kind in ("src/**/*.rt", "specs/**/*.antt", "proofs/**/*.antt", "must-fail/*.edit")
             for p in sorted(top.glob("crates/*/" + kind))]
    pages = [p for p in [top / "README.md", *sorted(top.glob("docs/*.md"))] if not p.name.startswith("PORT")]
    changed = 0
    for path, turn in [(p, respelled) for p in files] + [(p, quoted) for p in pages]:
        old = path.read_text(encoding="utf-8")
        new = turn(old)
        if new != old:
            path.write_text(new, encoding="utf-8")
            changed += 1
    print(f"respell: {len(PAIRS)} names, {changed} files changed")


if __name__ == "__main__":
    main()
