#!/usr/bin/env python3
"""Respells this repository's own definitions and lemmas: words in snake case, a dash only between two names.

usage: python3 tools/spell.py            at the top of the repository, once

NAMES has every name and its new spelling. A name is turned where it stands whole: in specs/, in proofs/, and in the clauses and
`ghost` lines of src/. Code, comments and strings of src/ have none of these names. A name after a dot is turned only where it is in
FIELDS, since what stands there otherwise is made by the prover, or is a field of another library.
"""

import os
import re

FIELDS = {"isOpen", "clearBefore", "wasPrimary"}

# fields of records in specs/ with a dash between plain words, and the crates that name them
DASHED = """
source-consistent target-secondary not-current not-bitmap not-recent not-older one-generation mine-unseen peer-unseen
two-blank-cards went-on-alone was-left-behind both-went-on was-primary long-away block-9-alone block-63-in-extent-0 block-64-in-extent-1
""".split()
DASHED_IN = ("compare", "worked_examples")

NAMES = dict(line.split() for line in """
a-stray a_stray
afterIdentifier after_identifier
afterLetter after_letter
ahead-put ahead_put
allowed-free allowed_free
allowed-fresh allowed_fresh
allowed-low allowed_low
and-true and_true
answer-complete answer_complete
answer-fault answer_fault
answer-is answer_is
answer-long answer_long
answer-mirror answer_mirror
answer-moves answer_moves
answer-other answer_other
answer-sound answer_sound
answerTo answer_to
area-parts area_parts
atNode at_node
atNodeOf at_node_of
back-put back_put
barred-by-cases barred_by_cases
barred-mirror barred_mirror
behind-lower behind_lower
behind-none behind_none
behind-own behind_own
behind-shifted behind_shifted
bit-rest bit_rest
bit-withExtent bit-with_extent
bits-answer bits_answer
bits-clear bits_clear
bits-read bits_read
bits-stray bits_stray
bitsShape bits_shape
blockAnswer block_answer
blockLimits block_limits
blockNumber block_number
blocksOf blocks_of
bounded-none bounded_none
bounded-same bounded_same
by-letter by_letter
bytes-length bytes_length
bytes-placed bytes_placed
bytesAnswer bytes_answer
bytesFrom bytes_from
canName can_name
canTake can_take
cardAnswer card_answer
carried-kept carried_kept
carried-out carried_out
carried-power carried_power
cases-extent cases_extent
changed-all changed_all
changed-more changed_more
changed-none changed_none
chosen-whole chosen_whole
clear-more clear_more
clear-read clear_read
clear-rest clear_rest
clearBefore clear_before
clears-none clears_none
columns-after columns_after
columns-before columns_before
columns-beside columns_beside
columns-put columns_put
columnsAt columns_at
common-comm common_comm
comparison-mirror comparison_mirror
comparison-sound comparison_sound
complete-by complete_by
cond-mirror cond_mirror
contents-by contents_by
contentsOf contents_of
counted-add counted_add
counted-le counted_le
counts-byte counts_byte
counts-none counts_none
createAnswer create_answer
dataBlocks data_blocks
dataLimits data_limits
decided-by-bitmap decided_by_bitmap
decidingRule deciding_rule
decodeAnswer decode_answer
digit-is digit_is
digit-of digit_of
digit-past digit_past
digit-power digit_power
digit-share digit_share
digit-suc digit_suc
digit-zero digit_zero
digitsOf digits_of
echoed-at echoed_at
encodeAnswer encode_answer
encodeInto encode_into
end-mirror end_mirror
eqb-not eqb_not
extended-sound extended_sound
extentIn extent_in
extentsOf extents_of
fault-below fault_below
fault-moves fault_moves
fewer-mirror fewer_mirror
field-fault field_fault
field-read field_read
field-right field_right
field-wrong field_wrong
fieldAnswer field_answer
fields-length fields_length
fields-more fields_more
fields-most fields_most
fields-one fields_one
fields-push fields_push
fields-row fields_row
fields-short fields_short
fields-whole fields_whole
fieldsAnswer fields_answer
fieldsOnly fields_only
figures-more figures_more
figures-not figures_not
finds-known finds_known
finds-mirror finds_mirror
first-high first_high
first-low first_low
first-mirror first_mirror
first-refused first_refused
firstThatFits first_that_fits
fits-here fits_here
fits-later fits_later
fits-mirror fits_mirror
fits-none fits_none
fitsAt fits_at
flag-number flag_number
flat-read flat_read
flat-wrote flat_wrote
flatFits flat_fits
flatMeaning flat_meaning
found-in-byte found_in_byte
found-in-rest found_in_rest
found-mirror found_mirror
found-past found_past
frame-sized frame_sized
frames-counted frames_counted
frames-put frames_put
frames-sized frames_sized
framesOf frames_of
fromOne from_one
fromThere from_there
fromTwo from_two
fromZero from_zero
generation-back generation_back
generationOf generation_of
getD-overlaid get_or-overlaid
getD-packed get_or-packed
getD-parts get_or-parts
givesWay gives_way
hasRoom has_room
hex-small hex_small
hexDigit hex_digit
hop-by hop_by
hop-emptied hop_emptied
hop-high hop_high
hop-low hop_low
hop-open hop_open
hop-sound hop_sound
hopChannel hop_channel
hopMeans hop_means
idle-ways idle_ways
image-wrote image_wrote
imageFits image_fits
imageMeaning image_meaning
imaged-block imaged_block
imaged-count imaged_count
in-extent in_extent
in-extent-0 in_extent_0
in-extent-1 in_extent_1
in-zero in_zero
inActivity in_activity
inGeneration in_generation
inOrder in_order
is-frame is_frame_lem
isFrame is_frame
isOpen is_open
isPrimary is_primary
joined-more joined_more
joinedTo joined_to
joins-more joins_more
joins-one joins_one
last-column last_column
layered-count layered_count
left-as-first left_as_first
left-as-second left_as_second
left-rest left_rest
leftBehind left_behind
length-bits length_bits
length-columns length_columns
length-frame length_frame
length-left length_left
length-lent length_lent
length-limits length_limits
length-partly length_partly
length-placed length_placed
length-putAt length-put_at
length-putMid length_put_mid
length-row length_row
letter-none letter_none
letterAnswer letter_answer
limitAt limit_at
limits-filled limits_filled
limitsAt limits_at
listed-drop listed_drop
look-done look_done
lower-taken lower_taken
mark-at mark_at
marked-bits marked_bits
marked-block marked_block
marked-extent marked_extent
marked-none marked_none
marked-read marked_read
marks-all marks_all
marks-extent marks_extent
marks-no-extent marks_no_extent
measure-only measure_only
meeting-mirror meeting_mirror
mirrorSome mirror_some
more-digits more_digits
next-none next_none
nextIdentifier next_identifier
nine-alone nine_alone
no-measure no_measure
no-slots no_slots
node-right node_right
node-wrong node_wrong
none-next none_next
none-stray none_stray
none-wait none_wait
not-empty not_empty
number-ends number_ends
number-extent number_extent
number-flag number_flag
number-grows number_grows
number-stops number_stops
numbers-back numbers_back
numbersOf numbers_of
octets-made octets_made
octets-set octets_set
ofActivity of_activity
ofBitmap of_bitmap
ofGeneration of_generation
off-extent off_extent
oldest-some oldest_some
one-digit one_digit
one-waits one_waits
oneLess one_less
oneMore one_more
ones-counted ones_counted
or-false or_false
overlaid-whole overlaid_whole
own-full own_full
own-sent own_sent
own-taken own_taken
pair-from pair_from
partly-all partly_all
passed-left passed_left
passing-sent passing_sent
passing-taken passing_taken
past-zero past_zero
place-far place_far
place-near place_near
place-past place_past
place-within place_within
prepend-none prepend_none
prepend-twice prepend_twice
put-after put_after
put-done put_done
put-more put_more
put-none put_none
put-room put_room
putAnswer put_answer
putAt put_at
putAt-fitting put_at_fitting
putInto put_into
putMid put_mid
puts-columns puts_columns
puts-last puts_last
puts-more puts_more
puts-nothing puts_nothing
puts-refused puts_refused
puts-short puts_short
queued-less queued_less
read-refused read_refused
readAnswer read_answer
readAt read_at
readAt-fault read_at_fault
readAt-number read_at_number
readFields read_fields
readInto read_into
readRow read_row
reads-columns reads_columns
reads-fault reads_fault
reads-field reads_field
reads-is reads_is
reads-put reads_put
refusalOf refusal_of
refused-bits refused_bits
refused-bytes refused_bytes
refused-limits refused_limits
refused-room refused_room
refusedAs refused_as
refuses-before refuses_before
refuses-byte refuses_byte
refuses-count refuses_count
refuses-digit refuses_digit
refuses-empty refuses_empty
refuses-left refuses_left
refuses-limit refuses_limit
refuses-other refuses_other
refuses-slots refuses_slots
refuses-zero refuses_zero
replace-done replace_done
report-said report_said
reportLimits report_limits
rest-cond rest_cond
ring-sized ring_sized
ring-within ring_within
roleOf role_of
room-last room_last
room-less room_less
room-more room_more
room-none room_none
round-after round_after
round-getD round-get_or
round-past round_past
round-start round_start
row-complete row_complete
row-end row_end
row-fault row_fault
row-sound row_sound
rowAnswer row_answer
rowFrom row_from
ruleFinds rule_finds
ruleFits rule_fits
saidBy said_by
same-equal same_equal
sameBitmap same_bitmap
sameBitmap-comm same_bitmap_comm
sameCurrent same_current
second-refused second_refused
send-closed send_closed
send-done send_done
send-full send_full
send-room send_room
send-size send_size
sendAnswer send_answer
sent-capacity sent_capacity
sets-none sets_none
settled-good settled_good
settled-mirror settled_mirror
shaped-bits shaped_bits
shaped-block shaped_block
shaped-fault shaped_fault
shaped-fields shaped_fields
shaped-report shaped_report
shaped-sound shaped_sound
shaped-stray shaped_stray
shapedAnswer shaped_answer
share-lt share_lt
sharesAncestor shares_ancestor
sharesAncestor-comm shares_ancestor_comm
shift-sent shift_sent
shifted-fewer shifted_fewer
shownOf shown_of
sideAt side_at
slot-emptied slot_emptied
slot-full slot_full
slot-sent slot_sent
slotChannel slot_channel
slotMeans slot_means
slots-measure slots_measure
slotsInUse slots_in_use
small-fits small_fits
sofar-all sofar_all
sofar-fault sofar_fault
sofar-more sofar_more
sofar-none sofar_none
sofar-small sofar_small
sound-by sound_by
source-mirror source_mirror
sourceWhere source_where
spacesFrom spaces_from
spelled-more spelled_more
spelledAll spelled_all
split-last split_last
startLimits start_limits
stays-whole stays_whole
straight-sent straight_sent
stray-below stray_below
supplyAnswer supply_answer
take-set-lt take-set_lt
take-spread take_spread
taker-by-cases taker_by_cases
takes-is takes_is
testAnswer test_answer
tested-good tested_good
tested-mirror tested_mirror
thenRow then_row
toldOf told_of
trailing-first trailing_first
trim-goes trim_goes
trim-stays trim_stays
trimmed-kept trimmed_kept
trimmed-zero trimmed_zero
trimmedOf trimmed_of
two-wait two_wait
unlessBarred unless_barred
unlessFault unless_fault
unlessStray unless_stray
unmarked-block unmarked_block
unmarked-read unmarked_read
value-more value_more
value-spaces value_spaces
wasPrimary was_primary
way-mirror way_mirror
ways-sized ways_sized
ways-within ways_within
went-on-apart went_on_apart
whole-frame whole_frame
withActivity with_activity
withBitmap with_bitmap
withBlock with_block
withExtent with_extent
withOne with_one
withSerial with_serial
within-at within_at
within-byte within_byte
within-extent within_extent
within-fitting within_fitting
within-most within_most
within-not within_not
within-read within_read
within-spread within_spread
within-tail within_tail
wordNumbered word_numbered
write-refused write_refused
writeAnswer write_answer
writeInto write_into
writeNumber write_number
writesAnswer writes_answer
written-bits written_bits
written-frame written_frame
written-injective written_injective
written-more written_more
written-so-far written_so_far
writtenLimits written_limits
zeros-octets zeros_octets
""".split("\n") if line)

WORD = re.compile(r"(?<![\w'\u00b7-])(\.?)([A-Za-z_][\w'-]*)")


dashed_here = []


def turned(match):
    dot, name = match.groups()
    if name in dashed_here:
        return dot + name.replace("-", "_")
    if dot and name not in FIELDS:
        # a definition by its module's path, as `Fields.readAnswer` or `generation.readAnswer`
        if name in NAMES and "-" not in name:
            return dot + NAMES[name]
        return match.group(0)
    return dot + NAMES.get(name, name)


def goals_own(line):
    """Whether the line names a goal, or is its answer's head: such names are the prover's."""
    return re.match(r"(pub |abbrev pub )?[\w-]+ : goal\.", line) is not None


def main():
    changed = 0
    for folder, _, files in os.walk("crates"):
        if "/out" in folder:
            continue
        for name in sorted(files):
            if not name.endswith((".antt", ".rt")):
                continue
            path = os.path.join(folder, name)
            dashed_here[:] = DASHED if path.split(os.sep)[1] in DASHED_IN else []
            with open(path, encoding="utf-8") as f:
                old = f.read()
            lines = []
            for line in old.split("\n"):
                comment = line.lstrip().startswith(("--", "//"))
                if comment:
                    line = re.sub(r"`([A-Za-z_][\w'-]*)`", lambda m: "`" + NAMES.get(m.group(1), m.group(1)) + "`", line)
                elif not goals_own(line):
                    line = WORD.sub(turned, line)
                lines.append(line)
            new = "\n".join(lines)
            if new != old:
                with open(path, "w", encoding="utf-8") as f:
                    f.write(new)
                changed += 1
    print(f"spell: {len(NAMES)} names, {changed} files changed")


if __name__ == "__main__":
    main()
