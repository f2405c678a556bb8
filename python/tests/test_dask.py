"""Many streams on a cluster: the histograms add up to the same as in a single process, and replicas have the same tables."""

import logging
import unittest

import numpy as np
import sandpile
from tools import needs_module, same

STREAMS, DROPS, SIDE = 64, 2000, 32
BINS = 2 ** np.arange(16)


def histogram(stream):
    """The number of avalanches of a replica in each size bin."""
    run = sandpile.Drive(np.full((SIDE, SIDE), 3), seed=1, stream=stream)
    return np.histogram(run.drop(DROPS)["size"], BINS)[0]


def too_wide(_):
    return np.zeros((1, 8193), int)


class Cluster(unittest.TestCase):
    @needs_module("distributed")
    def test_64_streams_on_a_local_cluster(self):
        from distributed import Client, LocalCluster

        quiet = {"silence_logs": logging.CRITICAL, "dashboard_address": None}
        with LocalCluster(n_workers=2, threads_per_worker=2, **quiet) as cluster, Client(cluster) as client:
            counts = client.gather(client.map(histogram, range(STREAMS)))
            tables = [list(sandpile.replicas((9, 8), 7, range(6), DROPS, by)) for by in (client, client.get_executor(), None)]
            greatest = [*sandpile.replicas((9, 8), 7, range(6), DROPS, client, each=lambda run: run.table["size"].max())]
            with self.assertRaisesRegex(RuntimeError, "the replica of stream 5 failed: Fault: fault 1 Side") as failed:
                next(sandpile.replicas(too_wide, 7, [5], DROPS, client))
            with self.assertRaises(sandpile.Fault) as caught:
                client.submit(sandpile.identity, (1, 8193)).result()
        self.assertEqual([caught.exception.number, failed.exception.__cause__.number], [1, 1])
        self.assertTrue(all(same(one, other) for others in tables[:2] for one, other in zip(others, tables[2])))
        self.assertEqual(list(map(len, tables)), [6, 6, 6])
        self.assertEqual(greatest, [table["size"].max() for table in tables[2]])
        np.testing.assert_array_equal(sum(counts), sum(map(histogram, range(STREAMS))))
        self.assertEqual(len({tuple(count) for count in counts}), STREAMS)
