"""Seeds: fresh ones, integers, and sequences of NumPy. And the sites of their streams."""

import itertools
import pickle
import unittest

import numpy as np
import sandpile
from sandpile import _library
from tools import same, words_of

FULL = np.full((8, 9), 3)


def sites(run):
    return run.drop(50)["site"].tolist()


class Seeds(unittest.TestCase):
    def test_a_run_without_a_seed_is_a_new_one(self):
        runs = [sandpile.Drive(FULL) for _ in range(4)]
        self.assertEqual(len({run.seed for run in runs}), 4)
        self.assertEqual(len({tuple(sites(run)) for run in runs}), 4)

    def test_a_fresh_seed_can_be_read_and_used_again(self):
        run = sandpile.Drive(FULL, stream=3)
        self.assertIs(type(run.seed), int)
        again, copied = sandpile.Drive(FULL, seed=run.seed, stream=3), pickle.loads(pickle.dumps(run))
        self.assertEqual([copied.seed, sites(again)], [run.seed, sites(copied)])
        self.assertTrue(same(again.table, run.drop(50)))

    def test_a_sequence_gives_its_first_number(self):
        sequence = np.random.SeedSequence(7)
        run = sandpile.Drive(FULL, seed=sequence)
        self.assertEqual(run.seed, int(np.random.SeedSequence(7).generate_state(1, np.uint64)[0]))
        self.assertEqual(sandpile.Drive(FULL, sequence).seed, run.seed)
        children = [sandpile.Drive(FULL, child) for child in sequence.spawn(8)]
        self.assertEqual(len({tuple(sites(child)) for child in [run, *children]}), 9)

    def test_integers(self):
        for seed in (0, 2**64 - 1, np.uint64(2**64 - 1), np.int8(7)):
            self.assertEqual(sandpile.Drive(FULL, seed).seed, seed)
        for seed in (-1, 2**64):
            with self.assertRaisesRegex(sandpile.Fault, f"Plan: seed is {seed}, but must be from 0 to {2**64 - 1}"):
                sandpile.Drive(FULL, seed)

    def test_what_is_no_seed(self):
        for call in (sandpile.Drive, sandpile.lab):
            for seed in (1.5, "7", [7], np.random.default_rng(7)):
                with self.assertRaisesRegex(TypeError, "seed must be an integer, a numpy.random.SeedSequence or None"):
                    call(FULL, seed)
            self.assertRaisesRegex(TypeError, r"so make it of these: numpy.random.SeedSequence\(", call, FULL, [1, 2])
        for call in (sandpile.Drive, sandpile.lab, lambda _, seed: sandpile.random_recurrent((2, 2), seed)):
            for seed in (np.random.default_rng(7), np.random.RandomState(7)):
                self.assertRaisesRegex(TypeError, r"a generator .* so draw one: seed=rng.integers\(2\*\*32\)", call, FULL, seed)


def sites_of(shape, seed, stream, place, count):
    """Sites of a stream from a place on, without the library."""
    sites = shape[0] * shape[1]
    if sites <= 65536:
        numbers = words_of(seed, stream, place)
    else:
        words = words_of(seed, stream, 2 * place)
        numbers = (low + 2**32 * high for low, high in zip(words, words))
    return [number % sites for number in itertools.islice(numbers, count)]


class Streams(unittest.TestCase):
    def test_the_published_words(self):
        # Those in calls.c.
        words = [word.to_bytes(4, "little").hex() for word in itertools.islice(words_of(0, 0), 18)]
        self.assertEqual(words[:3] + words[16:], ["3e00ef2f", "895f40d6", "7f5bb8e8", "d2aefa0d", "eaa5c151"])

    def test_sites_from_any_place_on(self):
        for shape in ((7, 5), (256, 256), (8, 8192), (257, 256), (300, 300), (4095, 4095), (8192, 8192)):
            for seed, stream in ((0, 0), (2**64 - 1, 2**63 + 5)):
                for place in (0, 1, 7, 8, 2**32 - 3, 2**63 - 9, 2**64 - 4, 2**64 - 1):
                    with self.subTest(shape=shape, seed=seed, place=place):
                        found = np.empty(20, np.int64)
                        _library.call("sites", shape, False, seed, stream, place, found)
                        self.assertEqual(found.tolist(), sites_of(shape, seed, stream, place, 20))

    def test_a_run_goes_on_where_it_was(self):
        for shape in ((256, 256), (257, 256), (300, 300)):
            run = sandpile.Drive(np.zeros(shape, int), seed=3, stream=4)
            found = [run.drop(9)["site"], run.drop(1)["site"]]
            again = pickle.loads(pickle.dumps(run))
            found += [again.drop(300)["site"], run.drop(4000)["site"][300:]]
            self.assertEqual(np.concatenate(found).tolist(), sites_of(shape, 3, 4, 0, 4010))
