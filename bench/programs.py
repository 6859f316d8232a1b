"""The program over rx_bench that scripts time: a built one that the command line names, or ours, built for measuring."""
import atexit
import os
import shutil
import sys
import tempfile

from iterators import build

BELOW = ('rx_memory rx_model rx_search rx_class rx_sets rx_reader rx_hir rx_literal rx_syntax rx_nfa rx_thompson rx_prefilter '
         'rx_engines rx_determinize rx_dfa rx_onepass_table rx_onepass_build rx_onepass memchr')


def rx_bench(words):
    """The first of these words as a path, and without words the program that is built here."""
    return existing(words[0]) if words else built()


def existing(path):
    """The path of a program that is there."""
    if not os.path.exists(path):
        sys.exit('no program at ' + path)
    return os.path.abspath(path)


def built():
    """Our program, of the modules in bench/rx_bench, without a proof. It is there until the script ends."""
    folder = tempfile.mkdtemp()
    atexit.register(shutil.rmtree, folder)
    return build(folder, 'rx_bench', BELOW)
