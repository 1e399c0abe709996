#!/usr/bin/env python3
"""Tests that pages.py finds the words that went, and no other.

usage: scripts/test_pages.py      from anywhere in a checkout
"""
import unittest

import pages


class Gone(unittest.TestCase):
    def test_words_of_pages(self):
        """Of each text: how many words went. Code may have them."""
        for text, many in {
            "It tells\nso many.": 2,
            "A disk is calm.": 1,
            "| a | the walk |": 1,
            "`calm` and `told` are labels.": 0,
            "```\nit was told\n```": 0,
            "A walker spells.": 1,
            "A book, with pages, whose ledger is full.": 2,
        }.items():
            self.assertEqual(len(list(pages.gone(text))), many, text)

    def test_names_of_crates(self):
        names = ["RelayedLine", "Relay", "make_paper", "PAPER", "papers", "SlateMaker", "translate"]
        found = [it.split("`")[1] for it in pages.gone_names(names)]
        self.assertEqual(found, ["PAPER", "Relay", "SlateMaker", "make_paper"])


if __name__ == "__main__":
    unittest.main()
