"""Clicks in a window of matplotlib: `show(run, click=True)`."""

import os
import unittest
from unittest import mock

import numpy as np
import sandpile
from sandpile import clicking
from tools import needs_module

os.environ["MPLBACKEND"] = "Agg"


@needs_module("matplotlib")
class Window(unittest.TestCase):
    def setUp(self):
        import matplotlib.pyplot as plt

        self.addCleanup(plt.close, "all")

    def click(self, ax, row, column, button=1):
        """Clicks a site, or beside the picture."""
        from matplotlib.backend_bases import MouseEvent

        x, y = ax.transData.transform((column, row))
        canvas = ax.figure.canvas
        canvas.callbacks.process("button_press_event", MouseEvent("button_press_event", canvas, x, y, button))
        canvas.draw()

    def lines(self, ax):
        """The outlines, each as its two ends."""
        return {tuple(map(tuple, np.round(line, 1).tolist())) for line in ax.collections[0].get_segments()}

    def test_a_click_drops_a_grain_and_outlines_its_waves(self):
        for cylinder in (False, True):
            run = sandpile.Drive(np.full((5, 7), 3), cylinder=cylinder)
            copy = sandpile.Drive(np.full((5, 7), 3), cylinder=cylinder)
            ax = sandpile.show(run, click=True)
            for row, column in ((2, 3), (0, 0), (4, 6), (2, 0)):
                self.click(ax, row, column)
                found, sizes, waves = copy.waves(row=row, column=column)
                self.assertEqual(run.table.tolist(), copy.table.tolist())
                self.assertEqual(np.asarray(ax.images[0].get_array()).tolist(), copy.pile.tolist())
                number = f"{len(sizes)} wave{'' if len(sizes) == 1 else 's'}"
                self.assertEqual(ax.get_title(), f"size {found['size']}, {number}")
                self.assertEqual(bool(self.lines(ax)), bool(len(sizes)))

    def test_outlines(self):
        self.assertEqual(clicking.outlines(np.zeros((0, 2, 3), bool), False).shape, (0, 2, 2))
        one = np.zeros((2, 2, 3), bool)
        one[0, 0, 0] = one[1, 0, :2] = True
        ends = {tuple(map(tuple, line)) for line in clicking.outlines(one, False).tolist()}
        self.assertEqual(ends, {
            ((-0.5, -0.5), (0.5, -0.5)), ((0.5, -0.5), (1.5, -0.5)), ((-0.5, 0.5), (0.5, 0.5)), ((0.5, 0.5), (1.5, 0.5)),
            ((-0.5, -0.5), (-0.5, 0.5)), ((0.5, -0.5), (0.5, 0.5)), ((1.5, -0.5), (1.5, 0.5)),
        })
        row = np.ones((1, 1, 3), bool)  # around a cylinder it has no ends
        self.assertTrue((clicking.outlines(row, True)[:, 0, 1] == clicking.outlines(row, True)[:, 1, 1]).all())

    def test_the_title_is_in_the_figure(self):
        for shape in ((64, 64), (256, 256), (3, 200), (200, 3), (1, 1)):
            ax = sandpile.show(sandpile.Drive(np.full(shape, 3)), click=True)
            for words in ("click a site: a grain drops there", "size 1,234,567, 123 waves"):
                ax.set_title(words, fontsize=10)
                ax.figure.canvas.draw()
                inside, title = ax.figure.bbox, ax.title.get_window_extent()
                self.assertTrue(inside.contains(title.x0, title.y0) and inside.contains(title.x1, title.y1), shape)
                self.assertFalse(title.overlaps(ax.get_window_extent()), shape)
            pixels = np.asarray(ax.figure.canvas.buffer_rgba())[..., :3]
            self.assertTrue((pixels[:28] < 128).any(axis=-1).any(), shape)  # of the title, on white

    def test_a_site_has_as_many_pixels_as_without_clicks(self):
        for shape in ((64, 64), (40, 64), (3, 200), (200, 3)):
            run = sandpile.Drive(np.random.default_rng(1).integers(0, 4, shape))
            scale = 512 // max(shape)
            height, width = shape[0] * scale, shape[1] * scale
            pixels = []
            for click in (False, True):
                canvas = sandpile.show(run, click=click).figure.canvas
                canvas.draw()
                left = (canvas.get_width_height()[0] - width) // 2
                pixels.append(np.asarray(canvas.buffer_rgba())[-height:, left : left + width, :3])
            self.assertTrue(np.array_equal(*pixels))

    def test_what_is_no_click_on_a_site(self):
        run = sandpile.Drive(np.full((5, 7), 3))
        ax = sandpile.show(run, click=True)
        self.click(ax, -3, 2)
        self.click(ax, 2, 2, button=3)
        with mock.patch.object(ax.figure.canvas, "toolbar", mock.MagicMock(mode="zoom rect")):
            self.click(ax, 2, 2)
        self.assertEqual(run.drops, 0)

    def test_the_edge_of_the_picture(self):
        run = sandpile.Drive(np.full((5, 7), 3))
        ax = sandpile.show(run, click=True)
        for row, column, site in ((-0.49, -0.49, 0), (4.49, 6.49, 34), (4.49, 0.51, 29)):
            self.click(ax, row, column)
            self.assertEqual(run.table["site"].tolist(), [site])

    def test_axes_of_the_caller(self):
        import matplotlib.pyplot as plt

        _, (one, other) = plt.subplots(1, 2)
        runs = [sandpile.Drive(np.full((5, 7), 3)) for _ in range(2)]
        for run, ax in zip(runs, (one, other)):
            self.assertIs(sandpile.show(run, ax, click=True), ax)
        one.figure.canvas.draw()
        self.click(other, 2, 2)
        self.assertEqual([run.drops for run in runs], [0, 1])

    def test_what_is_wrong_is_the_title(self):
        run = sandpile.Drive(np.full((5, 7), 3))
        ax = sandpile.show(run, click=True)
        with run._handle.dropping():
            self.click(ax, 2, 2)
        self.assertIn("another call is dropping grains on this Drive", ax.get_title().replace("\n", " "))
        self.assertEqual(run.drops, 0)

    def test_only_a_run_can_be_clicked(self):
        import matplotlib.pyplot as plt

        for wrong, name in (([[3, 3]], "list"), (sandpile.identity((3, 3)), "Recurrent"), (sandpile.settle([[3]]), "Settled")):
            with self.assertRaisesRegex(TypeError, f"it needs a Drive, not {name}: pass Drive"):
                sandpile.show(wrong, click=True)
        self.assertEqual(plt.get_fignums(), [])
