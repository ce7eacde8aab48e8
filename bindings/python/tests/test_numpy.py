"""The package over numpy arrays, without a copy."""
import copy
import unittest

import numpy

import puldeho

GRID = puldeho.Grid(w=6, r=3, k=2, n=2)


class Arrays(unittest.TestCase):
    def setUp(self):
        self.air = numpy.full(GRID.air_shape, 1000, dtype=numpy.uint32)
        self.tracers = numpy.zeros(GRID.tracers_shape, dtype=numpy.uint32)
        self.tracers[0] = 3 * self.air
        self.world = puldeho.World(GRID, self.air, self.tracers)

    def test_in_place(self):
        self.assertIs(self.world.tracers, self.tracers)
        self.world.emission(numpy.uint32(1), numpy.int64(GRID.cell_number(0, 1, 2)), 600)
        self.assertEqual(self.tracers[1, 0, 1 + 1 * GRID.w + 2], 600)
        fluxes = numpy.arange(GRID.w, dtype=numpy.int32)
        self.assertEqual(self.world.zonal(0, 1, fluxes), 1)
        self.assertTrue((self.tracers[0] == 3 * self.air).all())
        self.assertEqual(self.world.total(1), self.tracers[1].sum())

    def test_counted_once(self):
        layer, fluxes = numpy.array(1), numpy.full(GRID.w, 1500, dtype=numpy.int32)
        counted = self.world.count_zonal(layer, numpy.int64(1), fluxes)
        layer[...], fluxes[:] = 0, 0
        self.assertEqual(counted, (1, 1, (1500,) * GRID.w, 2))
        self.assertEqual([type(number) for number in counted[:2]], [int, int])
        self.assertEqual(self.world.zonal_with_count(counted), 2)

    def test_fluxes_by_face_row(self):
        fluxes = numpy.zeros((GRID.r + 1, GRID.w), dtype=numpy.int32)
        fluxes[0, 2] = 5
        self.world.meridional(1, fluxes)
        self.assertEqual((self.air[1, 0], self.air[1, 1 + 2]), (995, 1005))

    def test_other_arrays(self):
        with self.assertRaisesRegex(TypeError, "air: wants 32-bit unsigned.*astype.numpy.uint32"):
            puldeho.World(GRID, self.air.astype(numpy.int64), self.tracers)
        with self.assertRaisesRegex(TypeError, "fluxes: wants 32-bit signed"):
            self.world.zonal(0, 0, numpy.zeros(GRID.w))
        with self.assertRaisesRegex(TypeError, "air: wants"):
            puldeho.World(GRID, self.air.astype(">u4"), self.tracers)
        with self.assertRaisesRegex(ValueError, "side by side"):
            puldeho.World(GRID, numpy.asfortranarray(self.air), self.tracers)

    def test_copy(self):
        second = copy.deepcopy(self.world)
        second.emission(1, 5, 600)
        self.assertEqual((second.tracers[1, 0, 5], self.tracers[1, 0, 5]), (600, 0))
        self.assertEqual((second.total(1), self.world.total(1)), (600, 0))

    def test_restore(self):
        kept = self.world.copy()
        for _ in range(2):
            self.world.emission(1, 5, 600)
            self.world.restore(kept)
            self.assertEqual((self.world.total(1), self.tracers[1, 0, 5]), (0, 0))
        other = puldeho.World(GRID._replace(n=1), self.air.copy(), self.tracers[0].copy())
        with self.assertRaisesRegex(ValueError, "another grid"):
            self.world.restore(other)

    def test_limiter(self):
        self.world.set_limiter(numpy.int64(1), numpy.uint32(3), lo=numpy.array(5), hi=numpy.uint64(2**64 - 1))
        self.assertEqual(self.world.limiter(1), (puldeho.Limiter.FIXED, 5, 2**64 - 1))
        with self.assertRaisesRegex(TypeError, "hi: .* is not a whole number"):
            self.world.set_limiter(1, 3, lo=0, hi=numpy.float64(262144))

    def test_books(self):
        self.world.emission(1, 5, 600)
        before = self.world.book(numpy.int64(1))
        self.assertEqual((before, [type(units) for units in before]), ((0, 600, 0), [int] * 3))
        saved = self.tracers.copy()
        self.world.withdrawal(1, 5, 100)
        self.tracers[:] = saved                       # without the ledger of then
        with self.assertRaisesRegex(puldeho.Refused, "the book of tracer 1 has 0 loaded, 600 emitted and 100 withdrawn .*100 more"):
            self.world.total(0)
        self.assertEqual(puldeho.World(GRID, self.air, self.tracers).book(1), (600, 0, 0))

    def test_masked(self):
        fluxes = numpy.ma.masked_array(numpy.zeros(GRID.w, dtype=numpy.int32), [True] + [False] * 5)
        with self.assertRaisesRegex(ValueError, "fluxes: has masked entries"):
            self.world.zonal(0, 0, fluxes)
        self.assertEqual(self.world.zonal(0, 0, numpy.ma.masked_array(numpy.zeros(GRID.w, dtype=numpy.int32))), 1)

    def test_other_shapes(self):
        with self.assertRaisesRegex(ValueError, r"air: has the shape \(20, 2\), and wants \(2, 20\), or one dimension"):
            puldeho.World(GRID, self.air.T.copy(), self.tracers)
        with self.assertRaisesRegex(ValueError, r"tracers: has the shape \(20, 2, 2\), and wants \(2, 2, 20\)"):
            puldeho.World(GRID, self.air, self.tracers.T.copy())
        with self.assertRaisesRegex(ValueError, r"fluxes: has the shape \(6, 4\), and wants \(4, 6\)"):
            self.world.meridional(0, numpy.zeros((GRID.w, GRID.r + 1), dtype=numpy.int32))
        with self.assertRaisesRegex(puldeho.Refused, "refused with 2"):
            self.world.meridional(0, numpy.zeros((GRID.r, GRID.w), dtype=numpy.int32))
        self.assertEqual(self.world.remap(numpy.array([(0, 0), (0, 32768), (0, 65536)], dtype=numpy.uint32)), 40)

    def test_read_only_fluxes(self):
        fluxes = numpy.zeros(GRID.w, dtype=numpy.int32)
        fluxes.flags.writeable = False
        self.assertEqual(self.world.zonal(0, 0, fluxes), 1)


if __name__ == "__main__":
    unittest.main()
