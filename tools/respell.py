#!/usr/bin/env python3
"""Respells this repository's own definitions and lemmas: functions, lemmas, fields and constructors in snake case, types in camel case.

usage: python3 tools/respell.py     once, at the top of the repository, right after the kit's own port of the old spelling

It goes over .rt and .antt files below crates/ by whole names. A name that a file imports from the library keeps its spelling there.
"""

import os
import re

# Names whose new spelling follows from the old one.
PLAIN = """
Value-one Value-product Value-substitute Value-sum Value-value Value-variable a-before a-fits a-group a-name a-truth absent-first absentAt
accepted-all accepted-means accepted-parts after-grown after-listed after-shorter agree-own agree-sign agree-verdict all-and all-answers all-at
all-cong all-pick all-present all-run all-supported allBits allInWord and-digits and-swap answer-none answer-some answered-err answered-ok any-more
any-right anyBelow asked-decides asked-more at-bad at-event atEnd attainable-closed attainable-least b-fits back-refused back-serves badEnd before-end
before-le before-parsed before-row before-stop before-tab beforeWays begins-shorter behind-before behind-between behind-open behind-rule behind-tab
below-256 below-known beq-eq between-end between-of between-row betweenWays binary-at binary-linked binary-past binary-said binary-value binaryEnd
binaryLasts binaryPoly binaryRow bit-low bit-mod bit-next bit-on bit-pow bit-set bit-shr bit-small bit-zero bits-apart bound-as built-fits built-flat
built-tree built-whole by-claims by-each-word by-event by-range c-fits candidate-on candidate-sure carry-more carry-nothing carry-push change-past
change-within chosen-same cited-all cited-parts claim-sign claim-supported claimAt claimBy claimCount claimLine claimLines claimNext claimNo claimOn
comes-right cond-most count-le count-lt count-mono count-not count-one count-up countBelow d-fits decided-as decode-step digit-is done-scan doubtSet
earlier-here earlier-next early-at early-by eight-at either-by end-within ended-means ended-more equal-bits equal-fails equal-holds event-refused
event-serves eventRefusal exact-for-good exact-of faultAt faultOf few-events filled-as findIn first-eight first-from first-same first-start firstFault
fits-known fitted-join fitted-one fitted-tree flat-decode flat-length flat-whole for-good-iff foundBy four-words fresh-means fresh-nothing
from-whatever fromLetter full-before full-between full-name full-truth gather-front gather-known gather-longer gathered-not gathered-yes given-same
going-all going-none good-true grounds-map group-parsed half-fits halts-scan high-code higher-comm higher-fails higher-holds hit-miss hit-number
iff-sum implies-sum in-back in-bits in-cong in-letter in-low in-none in-nothing in-scale in-state inDoubt inThree index-fits index-low index-lt
index-node index-place inner-same into-some is-sign isBlank isEnd isEvent isKept isLetter isName isObligation isOn isTrue isWord join-assoc
join-bottom join-comm join-meet join-top keep-refused keep-serves kept-few kept-few-by kept-said keptBy known-letter laid-all laid-length laid-push
last-index last-told lasting-is layerNumber layerOf less-either less-turn letter-known letterAt letterCount letters-are letters-fit letters-same
lettersIn lettersOf level-at level-most level-on level-sure levels-small lex-end lex-mark lex-word lexAt lexRank line-is lines-append lines-one
listing-not listing-yes live-mark live-named live-reserved live-try look-refused look-serves looked-is looksAt lower-comm lower-fails lower-holds
many-events many-names many-to-write mark-foreign mark-high mark-in mark-refused mark-serves mark-zero marks-cut marks-higher marks-push marks-set
masks-are may-come means-end means-row meet-assoc meet-bottom meet-join meet-top monitor-same moves-vec name-parsed name-unless names-join names-long
names-noted namesIn new-letter no-fault no-operand-turn no-rank no-tighter noBits noLetter node-below node-fits node-more node-tree nodeAt nodeCount
nodePoly noded-as nodes-are nodes-as nodes-lettered nodes-ordered nodesOf none-all none-held none-refused none-wrong not-both noted-front noted-known
noted-room nothing-wrong now-kept nth-back nth-le nth-lt nth-new nth-old nthBelow number-asked number-value numbered-still numbers-long numbersFor
numbersOf obligation-means obligation-said oddFind oddMark oddMeaning of-rule on-before on-between on-close on-lt on-name on-open on-truth on-worth
onSet one-changed one-parts one-tree only-right open-stands operand-of operand-one or-false or-none or-sum or-true others-only panelMeaning panelOver
part-means part-run pass-two past-last past-set pick-lt place-fits place-le place-low place-lt place-more place-new place-old place-past place-within
placed-all placed-parts plain-read played-more played-push poly-depth polyAt polyWithin present-more productOver progress-all progress-more put-high
put-lt rank-few rank-next reach-scan react-by record-rows recordOf refusedNames reportOf reservedOf residual-more residual-push residualOf rest-is
rest-sign rest-value rests-on right-at root-number row-all row-length row-linked row-said row-set rowed-means rowed-more rows-front rows-laid
rows-past rule-flat run-le run-stop said-kept same-between same-letters sameSign scan-found serves-err serves-ok set-cong set-lt set-none set-skip
setBelow sets-apart shl-high shl-low short-room shorter-before shorter-between shorter-open shownBy side-of side-shorter sign-self signAt signIf
signNumber signRank signsFrom size-le size-more size-numbered size-some skip-end skip-more skipped-le span-end span-found span-join span-one
spelled-copy spelling-at spellings-length split-tab stage-half stage-next stage-none stages-are stages-end standing-serves stands-more state-parts
step-before step-between step-close step-le step-name step-open step-truth stepEnd stepRow store-more subjectOf substitute-same sum-add sum-cong
sum-none sum-pick sum-scale sum-split sum-swap supported-true tableLetters tableNodes take-le takes-mark takes-named takes-try takes-word termsOf
text-more text-none then-join threeWay to-left to-right to-whatever told-next told-past told-wrong toldOf too-deep top-high top-low toward-fails
toward-holds transformed-is tree-same treeOfRule truth-parsed turn-left turn-right two-parsed two-parts unary-at unary-linked unary-past unary-said
unary-value unaryEnd unaryLasts unaryLooks unaryPoly unaryRow unlessRefused unsupportedAt until-fails until-holds until-sum value-at value-known
value-nothing value-one value-over value-picked value-poly value-product value-substitute value-sum value-term value-total value-value value-variable
valueIn variable-is variable-none vec-cons vec-lt vector-fits verdict-back verdictOf verdictOn verdictWord watched-rows ways-map within-or word-halves
word-one wordPoly wordsMeaning wordsOver worth-below worth-bits worth-next worth-none worth-place worth-push worth-same worth-whole worthOf wrong-none
wrong-some wrongAt wrongCode wrongEvent xor-digits xor-false xor-right xor-sum xor-swap xorBelow yes-no-laws yesNo zero-alone
""".split()

# Lemmas whose new spelling would be that of the definition that they are about.
OTHER = {
    "at-end": "at_end_lem",
    "bad-end": "bad_end_lem",
    "binary-end": "binary_end_lem",
    "binary-row": "binary_row_lem",
    "bit-and": "bit_and_lem",
    "bit-or": "bit_or_lem",
    "bit-xor": "bit_xor_lem",
    "claim-next": "claim_next_lem",
    "from-letter": "from_letter_lem",
    "in-doubt": "in_doubt_lem",
    "no-letter": "no_letter_lem",
    "sign-if": "sign_if_lem",
    "unary-end": "unary_end_lem",
    "unary-row": "unary_row_lem",
    "wrong-event": "wrong_event_lem"
}

# The same for lemmas that have their new spelling already, by file.
IN_FILE = {
    "crates/claims/proofs/Accepted.antt": {"same_sign": "same_sign_lem"},
    "crates/claims/proofs/Right.antt": {"is_true": "is_true_lem"},
}


def spelled(name):
    if name[0].isupper():
        return "".join(part[0].upper() + part[1:] for part in name.split("-"))
    return re.sub(r"(?<=[a-z0-9])([A-Z])", lambda m: "_" + m.group(1).lower(), name).replace("-", "_")


NAMES = {name: spelled(name) for name in PLAIN} | OTHER
WORD = re.compile(r"(?<![\w'-])[A-Za-z_][\w'-]*")
FROM_LIBRARY = re.compile(r"use Rattle\.std[^{;\n]*\.\{([^}]*)\}")


def respelled(path, text):
    names = dict(NAMES)
    for listed in FROM_LIBRARY.findall(text):
        for word in listed.split(","):
            names.pop(word.strip().split(" as ")[-1], None)
    names.update(IN_FILE.get(path, {}))
    return WORD.sub(lambda m: names.get(m.group(0), m.group(0)), text)


def main():
    changed = 0
    for folder, folders, files in os.walk("crates"):
        folders[:] = sorted(f for f in folders if f != "out")
        for name in sorted(files):
            if name.endswith((".rt", ".antt")):
                path = os.path.join(folder, name)
                with open(path, encoding="utf-8") as f:
                    old = f.read()
                new = respelled(path.replace(os.sep, "/"), old)
                if new != old:
                    with open(path, "w", encoding="utf-8") as f:
                        f.write(new)
                    changed += 1
    print(f"respell: {len(NAMES)} names, {changed} files")


if __name__ == "__main__":
    main()
