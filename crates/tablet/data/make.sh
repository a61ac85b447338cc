#!/bin/sh
# Makes the sample blocks anew, in this folder:   sh samples/make.sh
# wedge.block, stroke.block and signs.block are made by the tool itself. cut.block is what a copy that broke off leaves, here inside a number;
# cut-between.block ends between two numbers of a run, and cut-behind.block behind a run. In torn.block someone "mended" the
# table of such a copy: its lengths fit again, and the first column still ends inside a number.
# cut-integer.block, cut-boolean.block and cut-text.block are copies that broke off in a column of that kind, and of cut-long.block more readings survive
# than the tool has room for. torn-kinds.block fits its table, and has a broken column of each kind, with refusal 6, 3, 3 and 20, behind which stand a
# column of type 6 and one of type 7; cut-value.block broke off in that last one. Of torn-absent.block absent readings alone survive, and of
# torn-long.block 42,300 booleans.
# wasteful.block has a column of each kind that is not in our form: runs of one, a run in three, a 0 between counts, equal neighbours in a literal run (shorter than
# ours), a name twice; absent readings alone, absent runs in a row; then one in our form, one that is as long as ours, one of 40,001 readings, and one of type 6.
# torn-wasteful.block has one that is not in our form and one that does not read.
# long.block has columns of many readings in few bytes: 72,500 depths and as many booleans, and 4,294,967,295 times the number 5.
# pen.log is a log of the pen over a delta column of four readings: a change, an insert at the end, an absent reading inserted, a removal. cut.log ends inside
# its second entry, and past.log names a reading that is not there.
# refusals/NN.block is a small block for refusal NN of documents 01 and 02; 01-name.block ends inside a name.
set -eu
cd "$(dirname "$0")"
rm -f wedge.block stroke.block signs.block
../../../tablet script make.txt
head -c 55 wedge.block >cut.block
head -c 54 wedge.block >cut-between.block
head -c 53 wedge.block >cut-behind.block
{ printf '\003\023\060\044\005\062\006'; tail -c +8 wedge.block | head -c 48; tail -c 11 wedge.block; } >torn.block
{
    printf '\003\023\046\044\012\062\006'
    printf '\340\335\000\000\330\004\001\200\375\000\000\000\270\027\250\306\000\000\254\002\176'
    printf '\370\325\000\000\226\001\003\300\076\000\302\003\177\340\335\000\000'
    printf '\214\140\260\352\001\240\234\001\330\117'
    printf '\377\377\377\377\017\005'
} >long.block
printf '\004\001\000\000\000\125\000\000\000\000\000\000\000\001\004\000\000\000\246\377\377\377\377\377\377\377\002\000\000\000\000\003\002\000\000\000' >pen.log
printf '\004\001\000\000\000\125\000\000\000\000\000\000\000\001\004\000\000\000\246\377\377\377' >cut.log
printf '\003\000\000\000\000\004\003\000\000\000\007\000\000\000\000\000\000\000' >past.log
head -c 120 wedge.block >cut-integer.block
head -c 48 long.block >cut-boolean.block
head -c 60 signs.block >cut-text.block
head -c 26 long.block >cut-long.block
{
    printf '\006\023\016\044\005\062\007\105\015\126\003\127\003'
    printf '\174\050\014\023\377\377\377\377\377\377\377\377\377\000'
    printf '\002\004\203\000\005'
    printf '\003\007\175\010\211\000\012'
    printf '\002\002AN\000\001\176\002KI\002\377\376'
    printf '\176\043\023'
    printf '\310\001\052'
} >torn-kinds.block
head -c 57 torn-kinds.block >cut-value.block
printf '\001\062\003\000\005\177' >torn-absent.block
printf '\001\044\006\214\140\260\352\001\200' >torn-long.block
{
    printf '\013\021\004\023\006\044\003\062\005\105\007\122\002\142\006\162\002\202\001\002\222\001\006\246\001\003'
    printf '\001\005\001\006'
    printf '\002\001\002\001\001\001'
    printf '\005\000\003'
    printf '\174\001\002\002\003'
    printf '\176\002\101\116\002\101\116'
    printf '\000\003'
    printf '\000\001\000\002\177\005'
    printf '\002\005'
    printf '\001\005'
    printf '\300\270\002\007\001\007'
    printf '\176\043\023'
} >wasteful.block
printf '\002\022\004\043\002\001\005\001\006\176\005' >torn-wasteful.block
cd refusals
printf '\003\023\350' >01.block
printf '\001\105\006\176\002AN\003K' >01-name.block
printf '\001\062\013\001\377\377\377\377\377\377\377\377\377\002' >02.block
printf '\001\062\003\001\200\000' >03.block
printf '\001\062\006\200\200\200\200\020\000' >05.block
printf '\001\023\014\176\377\377\377\377\377\377\377\377\377\000\001' >06.block
printf '\001\062\004\300\270\002\007' >09.block
printf '\101' >11.block
printf '\002\062\000\023\000' >12.block
printf '\001\033\000' >13.block
printf '\001\023\000\000' >15.block
printf '\001\020\000' >17.block
printf '\001\105\006\176\002AN\001\377' >20.block
printf '\003\023\150\044' >21.block
