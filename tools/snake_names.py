#!/usr/bin/env python3
"""Spells the repository's own definitions, lemmas, fields and constructors in snake case.

usage: python3 tools/snake_names.py    at the top of a checkout, once, right after the kit's port.py

Each name below becomes the same name with '_' for each '-', in every .rt and .antt file below crates/;
relations, which are spelled like types, get a capital for each word.
Names that Rattle makes (goals, steps, loops) and names of its library are not listed, and stay.
"""

import os
import re

NAMES = """
    access-shape a-refusal-changes-nothing access-fits access-items access-letter access-named access-same add-to after-low
    after-some after-top all-fields an-open-store-stays-open answer-form answer-items answers-again
    applied-below as-bit as-ruled at-feed behind-tab bit-eqb bit-same body-exit body-fits body-form body-items
    by-hub-1 by-hub-2 byte-kept byte-lost carried-by carried-with clean-answer cleans-in-its-way closed-feed
    count-le count-new decimal-number denial-number digit-of ends-drop ends-rest entries-are-last-writes
    every-record-new every-record-stays fault-front fault-reason few-fields field-fault fields-of filled-as
    filled-refusal first-fault first-free first-item first-number fit-join flat-1 flat-holding flat-is
    flat-none flat-numbered flat-some found-or four-meters free-there fresh-is-new front-fault gave-if
    give-back-by given-back-between giving-back head-fits head-form head-items holder-apart holder-fits
    holder-form holder-items holder-of hub-3 in-front in-full in-line in-range in-range? is-flat is-next
    is-permit is-writer item-same item-short items-same items-short joined-all joined-set joined-take
    journal-needed journal-open journal-records keeper-0 keeper-reason keeper-step keepers-in keeps-its-number
    keeps-records-by-the-rules kept-below kept-count kept-fits kept-none kept-old kept-room kept-within
    kept-write kind-letter kind-of known-push last-by last-form last-items latest-all latest-any
    latest-entries-stay latest-hit latest-if latest-kept latest-miss latest-push layer-form layer-items
    length-records letter-high letter-item letter-same line-short line-there majority-of making-stays
    meets-plain message-fits message-form message-items message-same meter-25 meter-form meter-items
    meter-line-short
    nearest-after new-layer new-pool new-pool-after new-record new-sessions next-in next-is next-none
    next-some next-within no-digit-alone no-entry no-fall no-fault no-feed no-flat no-nearer no-permit
    no-session no-store-reason no-write-twice no-writer not-below not-in-range noted-last noted-wrote
    nothing-after number-after number-within numbers-grow numeral-decimal of-keeper of-pool offset-of
    once-applies one-entry-more one-held one-long only-5-free only-a-step-that-stores-changes-anything
    open-cleaned others-stay outcome-of permit-after permit-at permit-is permit-none permit-numbered
    permit-some permits-length places-asked plain-cut plain-digits plain-letter pool-applies pool-fits
    pool-form pool-items prepare-at-1 promise-fits promise-form promise-items promise-kept promise-raised
    promised-form promising-next put-answer put-join put-none puts-apart puts-end puts-hit puts-if
    puts-in-the-way-of-its-store puts-kept puts-miss puts-old reads-fault reads-message records-after
    records-after-put records-at records-cleaned records-none records-past records-push records-put refill-all
    refill-more refusal-line registers-asked repeats-are-answered replies-by-the-rules reply-of reply-to
    round-at round-fits round-form row-length same-carried same-entry same-fresh same-holder same-keeper
    same-meter same-permit same-places same-pool same-promise same-records same-registers same-round
    same-session same-sessions search-after search-found search-none search-passed session-apart session-fits
    session-form session-items session-of stands-first state-form state-items step-on step-over store-reason
    table-needed table-open table-records take-join taken-apart
    takes-the-line-of-every-message takes-vote tells-the-message-or-a-fault then-fault then-went times-add
    times-one to-all told-extra told-fault told-message unknown-letter value-line-short was-his went-all
    went-amiss went-as went-fault went-join went-more went-none went-one went-within whole-line writer-is
    writer-none writer-some written-append wrong-access wrong-at wrong-letter wrong-meets wrong-number
    wrote-join wrote-line zero-meter zero-off
""".split()

WORD = re.compile(r"[^\s(){}\[\];,.:=λ→×⊥@⟨⟩]+")
RELATIONS = {
    "journal-puts": "JournalPuts",
    "journal-cleans": "JournalCleans",
    "table-puts": "TablePuts",
    "table-cleans": "TableCleans",
}
TURNED = {name: name.replace("-", "_") for name in NAMES} | RELATIONS


def turned(text):
    return WORD.sub(lambda m: TURNED.get(m.group(0), m.group(0)), text)


def main():
    for folder, folders, files in os.walk("crates"):
        folders[:] = [f for f in folders if f != "out"]
        for name in files:
            if name.endswith((".rt", ".antt")):
                path = os.path.join(folder, name)
                with open(path, encoding="utf-8") as f:
                    before = f.read()
                after = turned(before)
                if after != before:
                    with open(path, "w", encoding="utf-8") as f:
                        f.write(after)


if __name__ == "__main__":
    main()
