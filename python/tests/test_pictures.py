"""Pictures: each site is one pixel or a whole number of them, in the colour of its height."""

import io
import os
import subprocess
import sys
import unittest
import warnings
from unittest import mock

import numpy as np
import sandpile
from tools import needs, needs_module

os.environ["MPLBACKEND"] = "Agg"

SHAPES = [(1, 1), (256, 256), (1, 256), (3, 200), (40, 64)]
COLOURS = np.array([[11, 29, 58], [47, 111, 159], [242, 193, 78], [253, 246, 227]])
RED = [200, 16, 46]


def piles(shapes=SHAPES):
    return [np.random.default_rng(1).integers(0, 4, shape) for shape in shapes]


def squares(picture, scale):
    """The colour of each site of a picture, in which it has `scale` by `scale` pixels of one colour."""
    sites = picture[::scale, ::scale]
    if not np.array_equal(picture, sites.repeat(scale, axis=0).repeat(scale, axis=1)):
        raise AssertionError("a site has more than one colour")
    return sites


def decoded(png):
    """The pixels of a PNG file, by matplotlib."""
    from matplotlib.image import imread

    return (imread(io.BytesIO(png), "png")[..., :3] * 255).round().astype(int)


def drawn(pile):
    """The axes and the pixels of a figure of `show`."""
    import matplotlib.pyplot as plt

    axes = sandpile.show(pile)
    axes.figure.canvas.draw()
    pixels = np.asarray(axes.figure.canvas.buffer_rgba())[..., :3].astype(int)
    plt.close(axes.figure)
    return axes, pixels


@needs_module("matplotlib")
class Titles(unittest.TestCase):
    def test_a_title_is_above_the_picture(self):
        import matplotlib.pyplot as plt

        for pile in (*piles(), np.arange(12).reshape(3, 4), np.arange(600).reshape(200, 3), np.arange(2400).reshape(3, 800)):
            before = drawn(pile)[1]
            for loc in ("left", "center", "right"):
                axes = sandpile.show(pile)
                for title in ("A", "Another"):
                    axes.set_title(title, loc=loc)
                axes.figure.canvas.draw()
                pixels = np.asarray(axes.figure.canvas.buffer_rgba())[..., :3].astype(int)
                plt.close(axes.figure)
                with self.subTest(shape=np.shape(pile), loc=loc):
                    high, left = pixels.shape[0] - before.shape[0], (pixels.shape[1] - before.shape[1]) // 2
                    room = 32 if len(axes.figure.axes) == 1 else high  # beside a colour bar there may be room already
                    self.assertEqual((high, pixels.shape[1]), (room, max(before.shape[1], 384)))
                    rows = round(axes.get_position().height * len(pixels))
                    self.assertTrue(np.array_equal(pixels[-rows:, left : left + before.shape[1]], before[-rows:]))
                    self.assertTrue((pixels[:32] < 128).all(axis=2).any())

    def test_by_pyplot(self):
        import matplotlib.pyplot as plt

        for make in (lambda: sandpile.show(np.zeros((64, 64), int)), lambda: sandpile.animate(sandpile.Drive([[0]]), 1)):
            kept = make()
            plt.title("A title")
            self.assertEqual((plt.gcf().get_size_inches() * 128).round().tolist(), [512, 544])
            plt.gcf().canvas.draw()
            plt.close()
            del kept

    def test_without_a_title_nothing_changes(self):
        import matplotlib.pyplot as plt

        axes = sandpile.show(np.zeros((64, 64), int))
        axes.set_title("")
        self.assertEqual((axes.figure.get_size_inches() * 128).round().tolist(), [512, 512])
        plt.close(axes.figure)


class InNotebooks(unittest.TestCase):
    @needs_module("matplotlib")
    def test_each_site_is_a_square(self):
        for pile in piles():
            scale = min(512 // max(pile.shape), 32)
            run = sandpile.Drive(pile)
            run.drop(100)
            for shown in (sandpile.settle(pile), sandpile.recurrent(pile), run):
                with self.subTest(shown=type(shown).__name__, shape=pile.shape):
                    sites = squares(decoded(shown._repr_png_()), scale)
                    self.assertTrue(np.array_equal(sites, COLOURS[shown.pile]))

    @needs("pngtopam")
    def test_another_program_reads_the_same(self):
        for pile in piles():
            ended = subprocess.run(["pngtopam"], input=sandpile.settle(pile)._repr_png_(), capture_output=True)
            self.assertEqual((ended.returncode, ended.stderr), (0, b""))
            scale = min(512 // max(pile.shape), 32)
            kind, sides, most, pixels = ended.stdout.split(b"\n", 3)
            height, width = (side * scale for side in pile.shape)
            self.assertEqual((kind, sides, most), (b"P6", f"{width} {height}".encode(), b"255"))
            sites = squares(np.frombuffer(pixels, np.uint8).reshape(height, width, 3), scale)
            self.assertTrue(np.array_equal(sites, COLOURS[pile]))

    @needs_module("matplotlib")
    def test_times_of_burning_are_drawn_as_show_draws_them(self):
        for pile in (sandpile.identity((64, 64)), sandpile.burn(piles()[-1]).time % 4, [[0, 0, 3]]):
            burned = sandpile.burn(pile)
            height, width = burned.forbidden.shape
            _, pixels = drawn(burned)
            scale = 512 // max(height, width)
            shown = squares(pixels[-height * scale :, : width * scale], scale)
            sites = squares(decoded(burned._repr_png_()), min(scale, 32))
            self.assertTrue(np.array_equal(sites, shown))
            self.assertTrue(np.array_equal((sites == RED).all(axis=2), burned.forbidden))

    def test_a_stack_of_piles_has_no_picture(self):
        self.assertIsNone(sandpile.settle(np.full((2, 3, 4), 5))._repr_png_())

    def test_records_and_runs_of_the_laboratory_have_one(self):
        with sandpile.SharedPile(np.full((9, 7), 5), quota=0) as pile:
            record = pile.settle()
        run = sandpile.lab(np.full((9, 7), 5), drops=0)
        settled = sandpile.settle(np.full((9, 7), 5))
        self.assertEqual(record._repr_png_(), settled._repr_png_())
        self.assertEqual(run._repr_png_(), settled._repr_png_())


def plain_means(values, side):
    """The mean of each block of sites, one by one."""
    height, width = values.shape
    starts = np.ndindex(-(-height // side), -(-width // side))
    found = [values[side * i : side * i + side, side * j : side * j + side].mean() for i, j in starts]
    return np.reshape(found, (-(-height // side), -(-width // side)))


@needs_module("matplotlib")
class Large(unittest.TestCase):
    """With a side over 1,024, a pixel is the mean of a block of sites."""

    def shown(self, values, size):
        """The pixels of a picture, without its colour bar, and its axes."""
        axes, pixels = drawn(values)
        self.assertEqual(len(axes.figure.axes), 2)
        return pixels[-size[0] :, : size[1]], axes

    def test_a_site_has_a_pixel_up_to_1024(self):
        pile = np.random.default_rng(1).integers(0, 4, (3, 1024))
        self.assertTrue(np.array_equal(drawn(pile)[1], COLOURS[pile]))

    def test_heights(self):
        for shape, side, size in (((1025, 300), 2, (513, 150)), ((200, 2100), 3, (67, 700)), ((1, 8192), 8, (1, 1024))):
            pile = np.random.default_rng(1).integers(0, 4, shape)
            means = plain_means(pile, side)
            self.assertEqual(means.shape, size)
            pixels, axes = self.shown(pile, size)
            expected = np.stack([np.interp(means, range(4), channel) for channel in COLOURS.T], axis=2)
            self.assertLess(abs(pixels - expected).max(), 4)  # there are 255 colours
            self.assertEqual(axes.figure.axes[1].get_ylabel(), f"mean of {side} by {side} sites")
            self.assertEqual(axes.images[0].get_clim(), (0, 3))
            bottom, right = (side * length - 0.5 for length in size)
            self.assertEqual([*axes.images[0].get_extent()], [-0.5, right, bottom, -0.5])
            settled = sandpile.settle(pile)
            in_notebook = decoded(settled._repr_png_())
            self.assertLess(abs(in_notebook - expected).max(), 4)

    def test_an_odometer_and_a_mask(self):
        odometer = np.random.default_rng(1).integers(0, 10**6, (70, 2048))
        means = plain_means(odometer, 2)
        axes = self.shown(odometer, means.shape)[1]
        self.assertTrue(np.allclose(axes.images[0].get_array(), means))
        mask = odometer > 900_000
        pixels, axes = self.shown(mask, means.shape)
        expected = COLOURS[0] + plain_means(mask, 2)[..., None] * (np.array(RED) - COLOURS[0])
        self.assertLess(abs(pixels - expected).max(), 2)

    def test_no_masked_site_is_hidden(self):
        values = np.ones((1100, 40))
        values[501, 7] = np.nan
        pixels, _ = self.shown(values, (550, 20))
        is_red = (pixels == RED).all(axis=2)
        self.assertEqual((is_red.sum(), is_red[250, 3]), (1, True))
        burned = sandpile.burn(np.pad(np.zeros((2, 2), int), ((600, 600), (5, 5)), constant_values=3))
        is_red = (decoded(burned._repr_png_()) == RED).all(axis=2)
        self.assertEqual(is_red.sum(), 2)  # of the four sites, which are in two blocks

    def test_a_tree(self):
        tree = sandpile.random_recurrent((600, 40), seed=1).tree()
        shown = tree._shown()
        self.assertEqual((shown.shape, (shown == 3).sum()), ((1201, 81), 2 * 600 * 40))
        self.shown(tree, (601, 41))


@needs_module("matplotlib")
class Show(unittest.TestCase):
    def colours(self, values):
        """The colours of the sites, without those of a colour bar."""
        values = np.asanyarray(values)
        height, width = values.shape
        scale = 512 // max(height, width)
        _, pixels = drawn(values)
        return squares(pixels[-height * scale :, : width * scale], scale)

    def test_each_height_has_its_colour(self):
        for pile in piles():
            _, pixels = drawn(pile)
            self.assertTrue(np.array_equal(squares(pixels, 512 // max(pile.shape)), COLOURS[pile]))

    def test_what_can_be_drawn(self):
        import matplotlib.pyplot as plt

        run = sandpile.Drive(np.full((3, 4), 3), cylinder=True)
        record = sandpile.settle([[9]])
        for pile in ([[0]], [[0, 9], [10**12, 3]], sandpile.identity((256, 256)), np.zeros((3, 256), np.uint64), run, record):
            drawn(pile)
        _, axes = plt.subplots()
        self.assertIs(sandpile.show([[1, 2]], ax=axes), axes)
        plt.close("all")

    def test_objects_are_drawn_as_their_piles(self):
        run = sandpile.Drive(np.full((40, 64), 5), seed=1)
        for shown in (run, sandpile.settle(np.full((5, 4), 9)), sandpile.identity((4, 3), cylinder=True)):
            self.assertTrue(np.array_equal(drawn(shown)[1], drawn(shown.pile)[1]))

    def test_an_odometer_is_graded_and_has_a_bar(self):
        for shape in ((40, 64), (1, 256), (256, 1), (142, 9), (181, 100)):
            odometer = np.arange(np.prod(shape)).reshape(shape) * 1000
            axes, pixels = drawn(odometer)
            bar = axes.figure.axes[1]
            self.assertEqual(bar.get_ylim(), (0, odometer.max()))
            self.assertLessEqual(max(pixels.shape), 512 + 120)
            self.assertTrue((pixels[:, -4:] == 255).all())  # the numbers have room
            light = self.colours(odometer).sum(axis=2).ravel()
            self.assertTrue((np.diff(light) >= 0).all())
            self.assertGreater(len(set(light.tolist())), 150)
        self.assertEqual(len(drawn([[0, 3]])[0].figure.axes), 1)

    def test_a_bar_beside_given_axes(self):
        import matplotlib.pyplot as plt

        figure, (one, other) = plt.subplots(1, 2)
        sandpile.show([[0, 3]], one)
        self.assertEqual(len(figure.axes), 2)
        self.assertIs(sandpile.show([[0, 7]], ax=other), other)
        self.assertEqual(len(figure.axes), 3)
        figure.canvas.draw()
        plt.close(figure)

    def test_differences_and_means(self):
        one, other = (sandpile.settle(np.full((8, 8), height)).pile for height in (5, 6))
        axes, _ = drawn(one - other)
        self.assertEqual(axes.images[0].get_clim(), ((one - other).min(), (one - other).max()))
        axes, _ = drawn(np.array([[0.5, 2.5]]))
        self.assertEqual(axes.images[0].get_clim(), (0, 2.5))

    def test_masks_and_masked_sites_are_red(self):
        mask = piles()[-1] == 0
        self.assertTrue(np.array_equal((self.colours(mask) == RED).all(axis=2), mask))
        self.assertTrue(np.array_equal(self.colours(mask)[~mask], np.broadcast_to(COLOURS[0], (np.sum(~mask), 3))))
        for values in (np.ma.masked_array(piles()[-1], mask), np.where(mask, np.nan, 7.0)):
            self.assertTrue(np.array_equal((self.colours(values) == RED).all(axis=2), mask))
        self.assertEqual(drawn(values)[0].images[0].get_clim(), (0, 7))

    def test_thirty_figures(self):
        import matplotlib.pyplot as plt

        most = plt.rcParams["figure.max_open_warning"]
        with warnings.catch_warnings():
            warnings.simplefilter("error")
            shown = [sandpile.show([[k % 4, k]]) for k in range(30)]
            for axes in shown:
                axes.figure.savefig(io.BytesIO())
        self.assertEqual(plt.get_fignums(), [axes.figure.number for axes in shown])  # of which plt.show() shows all
        self.assertIs(plt.gca(), shown[-1])
        self.assertEqual(plt.rcParams["figure.max_open_warning"], most)
        plt.close("all")

    def test_what_is_no_picture(self):
        for values in ([["a"]], [[1j]], [[None]]):
            self.assertRaises(TypeError, sandpile.show, values)
        for values in ([1, 2], np.zeros((2, 2, 2))):
            for kind in (TypeError, ValueError):
                self.assertRaises(kind, sandpile.show, values)
        for shape in ((0, 5), (5, 0), (0, 0)):
            self.assertRaisesRegex(ValueError, "no sites to draw", sandpile.show, np.zeros(shape, int))


class WithoutMatplotlib(unittest.TestCase):
    def test_what_is_missing(self):
        with mock.patch.dict(sys.modules, {"matplotlib.pyplot": None}):
            for call in (lambda: sandpile.show([[0]]), lambda: sandpile.animate(sandpile.Drive([[0]]))):
                self.assertRaisesRegex(ImportError, "needs matplotlib, which is not installed", call)
        self.assertIsInstance(sandpile.settle([[3]])._repr_png_(), bytes)
