"""Animations: the frames of avalanches, and the files that are saved."""

import base64
import contextlib
import copy
import io
import itertools
import os
import re
import sys
import unittest
import warnings
from unittest import mock

import numpy as np
import sandpile
from tools import needs_module, new_folder

os.environ["MPLBACKEND"] = "Agg"


def frames(run, drops, **how):
    """The frames of an animation, which is drawn once so that matplotlib does not warn."""
    import matplotlib.pyplot as plt

    animation = sandpile.animate(run, drops, **how)
    plt.gcf().canvas.draw()
    plt.close()
    return list(animation.new_saved_frame_seq())


def pictures_in(page):
    """The frames of a player, as arrays."""
    from PIL import Image

    found = (base64.b64decode(text.replace("\\\n", "")) for text in re.findall(r'"data:image/png;base64,([^"]*)"', page))
    return [np.asarray(Image.open(io.BytesIO(png)).convert("RGB")) for png in found]


def topple(heights, sites, cylinder):
    """Topples once each site of a mask."""
    height, width = heights.shape
    for row, column in np.argwhere(sites):
        heights[row, column] -= 4
        for i, j in ((row - 1, column), (row + 1, column), (row, column - 1), (row, column + 1)):
            if 0 <= i < height and (cylinder or 0 <= j < width):
                heights[i, j % width] += 1


@needs_module("matplotlib")
class Animate(unittest.TestCase):
    def test_by_hand(self):
        # 3 3 1 with a grain at the first site is 4 3 1, then 0 4 1, then 1 0 2.
        run = sandpile.Drive([[3, 3, 1]], seed=5)  # whose first grain drops on the first site
        self.assertEqual([frame.tolist() for frame in frames(run, 1)], [[[5, 4, 2]]])
        self.assertEqual([frame.tolist() for frame in frames(run, 1, toppling=True)], [[[8, 3, 1]], [[4, 8, 1]], [[5, 4, 2]]])

    def test_frames_are_those_of_drops(self):
        for cylinder in (False, True):
            run = sandpile.Drive(np.full((9, 12), 5), seed=3, cylinder=cylinder)
            run.drop(7)
            other = copy.copy(run)
            for frame in frames(run, 50):
                before = other.odometer
                other.drop(1)
                self.assertTrue(np.array_equal(frame, other.pile + 4 * (other.odometer > before)))
            self.assertEqual((run.drops, other.drops), (7, 57))

    def test_each_step_topples_all_that_can(self):
        for cylinder in (False, True):
            run = sandpile.Drive(np.full((9, 12), 3), seed=3, cylinder=cylinder)
            steps = iter(frames(run, 50, toppling=True))
            for _ in range(50):
                heights, toppled = run.pile.astype(int), np.zeros((9, 12), bool)
                heights.flat[run.drop(1)["site"]] += 1
                while (heights > 3).any():
                    self.assertEqual(next(steps).tolist(), np.where(heights > 3, 8, heights + 4 * toppled).tolist())
                    toppled |= heights > 3
                    topple(heights, heights > 3, cylinder)
                self.assertEqual(heights.tolist(), run.pile.tolist())
                self.assertEqual(next(steps).tolist(), (heights + 4 * toppled).tolist())
            self.assertIsNone(next(steps, None))

    def test_each_frame_is_before_a_wave(self):
        for cylinder in (False, True):
            run = sandpile.Drive(np.full((9, 12), 3), seed=3, cylinder=cylinder)
            found, most = iter(frames(run, 50, waves=True)), 0
            for _ in range(50):
                heights, toppled = run.pile, np.zeros((9, 12), bool)
                row, sizes, waves = run.waves()
                heights.flat[row["site"]] += 1
                for wave in waves:
                    self.assertEqual(next(found).tolist(), np.where(wave, 8, heights + 4 * toppled).tolist())
                    toppled |= wave
                    topple(heights, wave, cylinder)
                self.assertEqual(next(found).tolist(), (heights + 4 * toppled).tolist())
                most = max(most, len(sizes))
            self.assertIsNone(next(found, None))
            self.assertGreater(most, 2)

    def test_pixels_of_a_large_grid(self):
        import matplotlib.pyplot as plt

        run = sandpile.Drive(np.full((40, 1100), 3), seed=1)
        colours = np.array([[11, 29, 58], [47, 111, 159], [242, 193, 78], [253, 246, 227], [200, 16, 46]])
        colours = np.concatenate([colours[:4], (colours[:4] + colours[4]) / 2, colours[4:]]) / 255
        animation = sandpile.animate(run, 1, toppling=True)
        frame = next(animation.new_frame_seq())
        animation._func(frame)
        shown = plt.gcf().axes[0].images[0].get_array()
        blocks = colours[frame].reshape(20, 2, 550, 2, 3).mean(axis=(1, 3))
        self.assertTrue(np.allclose(shown, blocks))
        plt.gcf().canvas.draw()
        plt.close()

    @needs_module("PIL")
    def test_it_is_saved_again_and_again(self):
        import matplotlib.pyplot as plt
        from PIL import Image

        folder, run = new_folder(self), sandpile.Drive(np.full((8, 16), 3), seed=1)
        animation = sandpile.animate(run, 6)
        for name in ("one.gif", "other.gif"):
            animation.save(folder / name, writer="pillow")
            run.drop(5)
        self.assertEqual((folder / "one.gif").read_bytes(), (folder / "other.gif").read_bytes())
        with Image.open(folder / "one.gif") as picture:
            self.assertEqual((picture.n_frames, picture.size), (6, (512, 256)))
        self.assertIn("<img", animation.to_jshtml())
        plt.close()

    def test_progress(self):
        run = sandpile.Drive(np.full((9, 12), 3), seed=3)
        for how in ({}, {"toppling": True}, {"waves": True}):
            with mock.patch.dict(sys.modules, {"tqdm.auto": None}), contextlib.redirect_stderr(io.StringIO()) as said:
                shown = frames(run, 7, progress=True, **how)
            self.assertRegex(said.getvalue(), r"^\r1 of 7 drops.*\r7 of 7 drops\n$")
            for one, other in itertools.zip_longest(shown, frames(run, 7, **how)):
                self.assertTrue(np.array_equal(one, other))

    def test_a_player_has_the_frames_that_matplotlib_draws(self):
        import matplotlib.pyplot as plt
        from matplotlib.animation import Animation

        for shape, how in (((8, 16), {}), ((20, 10), {"waves": True}), ((3, 8), {"toppling": True}), ((64, 64), {})):
            run = sandpile.Drive(np.full(shape, 3), seed=1)
            animation = sandpile.animate(run, 6, interval=50, **how)
            with warnings.catch_warnings():
                warnings.simplefilter("error")
                encoded = animation.to_jshtml()
            drawn = Animation.to_jshtml(animation)
            plt.close()
            pictures = [pictures_in(text) for text in (encoded, drawn)]
            with self.subTest(shape=shape):
                self.assertEqual(*map(len, pictures))
                for one, other in zip(*pictures):
                    self.assertEqual(one.shape, other.shape)
                    self.assertLessEqual(abs(one.astype(int) - other).max(), 1)
                same = [re.sub(r'"data:image[^"]*"|[0-9a-f]{32}', "", text) for text in (encoded, drawn)]
                self.assertEqual(*same)  # the interval and how often it is repeated, too

    def test_a_player_of_an_odd_number_of_pixels(self):
        import matplotlib.pyplot as plt

        animation = sandpile.animate(sandpile.Drive(np.full((3, 7), 3), seed=1), 2)
        self.assertEqual([picture.shape for picture in pictures_in(animation.to_jshtml())], 2 * [(219, 511, 3)])
        plt.close()

    def test_a_player_is_made_without_drawing_each_frame(self):
        import matplotlib.pyplot as plt
        from matplotlib.figure import Figure

        animation = sandpile.animate(sandpile.Drive(sandpile.random_recurrent((64, 64), 1), seed=1), 100)
        with mock.patch.object(Figure, "savefig", side_effect=AssertionError):
            page = animation.to_jshtml(fps=5, default_mode="reflect")
        self.assertEqual(page.count("data:image/png"), 100)
        self.assertLess(len(page), 900_000)  # matplotlib makes 1,200,000
        plt.close()

    def test_what_was_added_is_in_the_player(self):
        import matplotlib.pyplot as plt

        def titled(ax):
            ax.set_title("A title")

        for add in (titled, lambda ax: ax.plot([0, 7], [0, 7]), lambda ax: ax.figure.text(0, 0, "A"), lambda ax: ax.set_xlim(0, 3)):
            animation = sandpile.animate(sandpile.Drive(np.full((8, 8), 3), seed=1), 2)
            plain = pictures_in(animation.to_jshtml())
            add(plt.gca())
            shown = pictures_in(animation.to_jshtml())
            self.assertFalse(plain[0].shape == shown[0].shape and np.allclose(plain[0], shown[0], atol=1))
            plt.close()

    def test_given_axes(self):
        import matplotlib.pyplot as plt

        figure, axes = plt.subplots()
        animation = sandpile.animate(sandpile.Drive([[3]]), 2, interval=20, ax=axes)
        figure.canvas.draw()
        self.assertEqual((len(axes.images), animation.event_source.interval), (1, 20))
        plt.close(figure)

    @needs_module("PIL")
    def test_axes_of_a_subfigure(self):
        import matplotlib.pyplot as plt

        figure, folder = plt.figure(), new_folder(self)
        left, right = figure.subfigures(1, 2)
        animation = sandpile.animate(sandpile.Drive([[3, 3]]), 2, ax=right.subplots())
        animation.save(folder / "run.gif", writer="pillow")
        self.assertGreater((folder / "run.gif").stat().st_size, 100)
        plt.close(figure)

    def test_what_is_refused(self):
        self.assertRaises(TypeError, sandpile.animate, [[3]])
        self.assertRaisesRegex(TypeError, "not both", sandpile.animate, sandpile.Drive([[3]]), toppling=True, waves=True)
        self.assertRaises(TypeError, sandpile.animate, sandpile.Drive([[3]]), 1.5)
        self.assertRaises(sandpile.Fault, sandpile.animate, sandpile.Drive([[3]]), -1)
