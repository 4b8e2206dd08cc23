"""What tools/build and tools/functions ask of the toolchain's own module `rtlib`, which no command
of `rt` offers.

  rtinside.py BIN sums FOLDER     the sum that rt has for the sources of each crate below a folder
  rtinside.py BIN prove JOBS      proves the crate of the working folder as `rt ci` does
  rtinside.py BIN words JOBS      the words by which `rattle check` checks that crate, one a line

`rt ci` leaves libraries without the sums by which `rt lib` takes them, `rt lib` can't prove into a
library that holds statements and no proofs, which the crates above read in a third of the time, and
`rt check` always goes on from what it kept. No other file of this repository knows such names:
where a toolchain has others this ends with 75, and tools/build does without. BIN is the folder of
the toolchain's commands.
"""

import os
import pathlib
import sys

OTHER_TOOLCHAIN = 75


def tell_sums(rtlib, folder):
    for crate in rtlib.crates_below(folder):
        print(crate.name, crate.stamp())
    return 0


def crate_here(rtlib):
    here = os.getcwd()
    return rtlib.Crate(here, rtlib.root_above(here) or here, {})


def tell_words(rtlib, jobs):
    print(*crate_here(rtlib).words(["--jobs", jobs]), sep="\n")
    return 0


def prove(rtlib, jobs):
    crate_class = rtlib.Crate
    crate_class.cuts_libraries = "--statements" in rtlib.help_of("build")
    crate = crate_here(rtlib)
    stamp, build, file = crate.stamp(), crate.build_rlib, pathlib.Path("out/rlib/stamp")
    rtlib.guarded()
    # The locks are held as long as this lives.
    held = rtlib.lock([*crate.below(), crate])
    crate_class.may_have_bugs = crate_class.may_be_empty = crate_class.may_call_c = True
    status = 0 if crate.is_built() else build(["--jobs", jobs], True)
    if status == 0 and stamp == crate.stamp():
        file.write_text(stamp)
    del held
    return status


def main(bin_folder, word, argument):
    sys.path.insert(0, bin_folder)
    try:
        import rtlib
        calls = {"sums": tell_sums, "prove": prove, "words": tell_words}
        return calls[word](rtlib, argument)
    except (ImportError, AttributeError):
        return OTHER_TOOLCHAIN


if __name__ == "__main__":
    sys.exit(main(*sys.argv[1:]))
