"""The package over plain buffers: case P, what is taken and what is not, refusals as exceptions."""
import array
import copy
import pickle
import unittest

import puldeho

AIR = [100] * 6
TRACERS = [0, 0, 100, 200, 100, 0]
GRID = puldeho.Grid(w=4, r=1, k=1, n=1)


def world():
    return puldeho.World(GRID, array.array("I", AIR), array.array("I", TRACERS))


class CaseP(unittest.TestCase):
    def test_in_place(self):
        air, tracers = array.array("I", AIR), array.array("I", TRACERS)
        one = puldeho.World(GRID, air, tracers)
        self.assertIs(one.air, air)
        self.assertEqual(one.zonal(0, 0, [0, 50, 0, 0]), 1)
        self.assertEqual(one.total(0), 400)
        self.assertEqual(one.cell(0, 3), 262)
        self.assertEqual(air.tolist(), [100, 100, 50, 150, 100, 100])
        self.assertEqual(tracers.tolist(), [0, 0, 38, 262, 100, 0])

    def test_case_x1_shows_the_scale(self):
        # before version 0.6 the scale was 65,536, and the row's tracer 322, 110, 27, 1097
        one = puldeho.World(GRID, [100, 928, 314, 81, 658, 100], [0, 221, 496, 522, 317, 0])
        self.assertEqual(one.zonal(0, 0, [421, 462, 475, 229]), 7)
        self.assertEqual(one.air.tolist(), [100, 736, 273, 68, 904, 100])
        self.assertEqual(one.tracers.tolist(), [0, 321, 110, 27, 1098, 0])
        self.assertEqual(puldeho.SCALE, 262144)

    def test_a_list_is_copied(self):
        air, tracers = list(AIR), list(TRACERS)
        one = puldeho.World(GRID, air, tracers)
        one.zonal(0, 0, (0, 50, 0, 0))
        self.assertEqual(tracers, TRACERS)
        self.assertEqual(one.tracers.tolist(), [0, 0, 38, 262, 100, 0])

    def test_every_call(self):
        one = world()
        self.assertIsNone(one.emission(0, 5, 7))
        self.assertIsNone(one.withdrawal(0, 3, 200))
        self.assertEqual(one.meridional(0, array.array("i", [1, 0, 0, 0, 0, 0, 0, -10])), 1)
        self.assertEqual(one.remap([0, 0, 0, 65536]), 6)
        self.assertEqual(one.air.tolist(), [99, 101, 100, 100, 110, 90])

    def test_long_sweep(self):
        one = world()
        self.assertIsNone(one.long_zonal(0, 0, [0, 50, 0, 0]))
        self.assertEqual(one.air.tolist(), [100, 100, 50, 150, 100, 100])
        self.assertEqual(one.tracers.tolist(), [0, 0, 37, 263, 100, 0])
        kept = one.copy()
        one.long_zonal(0, 0, array.array("i", [400] * 4))
        self.assertEqual((one.air, one.tracers), (kept.air, kept.tracers))

    def test_count_and_then_the_sweep(self):
        one, single, fluxes = world(), world(), array.array("i", [150] * 4)
        counted = one.count_zonal(0, 0, fluxes)
        self.assertEqual(counted, puldeho.CountedZonal(layer=0, row=0, fluxes=(150,) * 4, substeps=2))
        self.assertEqual((counted.count, pickle.loads(pickle.dumps(counted))), (2, counted))
        self.assertEqual((one.air.tolist(), one.tracers.tolist()), (AIR, TRACERS))
        fluxes[0] = 7
        self.assertEqual(one.zonal_with_count(counted), 2)
        self.assertEqual(single.zonal(0, 0, [150] * 4), 2)
        self.assertEqual((one.air, one.tracers), (single.air, single.tracers))
        for wrong in (2, [150] * 4, (0, 0, (150,) * 4, 2)):
            with self.assertRaisesRegex(TypeError, "zonal_with_count takes what count_zonal gave, not a value of type (int|list|tuple)"):
                one.zonal_with_count(wrong)

    def test_emitters(self):
        one = world()
        self.assertIsNone(one.tick(0))
        self.assertIsNone(one.add_emitter(0, 3, 7, 40))
        one.add_emitter(0, 3, 8, 60)
        one.add_emitter(0, 4, 0, 30)
        self.assertEqual(one.units_a_tick(0), 130)
        self.assertIsNone(one.tick(0))
        self.assertEqual(one.tracers.tolist(), [0, 0, 100, 300, 130, 0])
        self.assertIsNone(one.remove_emitter(0, 7))
        self.assertEqual(one.ledger.tolist(), [2, 90, 0, 0, 4, 30, 8, 3, 60] + [0] * 42 + [1, 0, 0, 0, 0] + [400, 130, 0])
        self.assertEqual(len(one.ledger), GRID.ledger_length)
        one.add_emitter(0, 0, 2**32 - 1, 2**32 - 1)
        self.assertEqual(one.units_a_tick(0), 2**32 + 89)

    def test_a_load_leaves_no_emitter(self):
        one = world()
        one.add_emitter(0, 3, 7, 40)
        again = puldeho.World(GRID, one.air, one.tracers)
        self.assertEqual((one.units_a_tick(0), again.units_a_tick(0)), (40, 0))

    def test_limiters(self):
        for limiter, bounds, left in (
            (puldeho.Limiter.PRESENT, {}, 150),
            (puldeho.Limiter.POSITIVE, {}, 144),
            (puldeho.Limiter.FIXED, dict(lo=0, hi=31 * puldeho.SCALE // 10), 148),
            (3, dict(lo=0, hi=2**64 - 1), 144),
        ):
            one = puldeho.World(GRID, AIR, [0, 100, 300, 200, 0, 0])
            self.assertEqual(one.limiter(0), (puldeho.Limiter.PRESENT, 0, 0))
            self.assertIsNone(one.set_limiter(0, limiter, **bounds))
            self.assertEqual(one.limiter(0), (limiter, bounds.get("lo", 0), bounds.get("hi", 0)))
            one.zonal(0, 0, [0, 50, 0, 0])
            self.assertEqual(one.tracers[2], left)
            again = puldeho.World(GRID, one.air, one.tracers)
            self.assertEqual(again.limiter(0), puldeho.StandingLimiter(puldeho.Limiter.PRESENT, lo=0, hi=0))

    def test_a_limiter_of_each_gas(self):
        one = puldeho.World(GRID._replace(n=2), AIR, TRACERS + TRACERS)
        one.set_limiter(1, puldeho.Limiter.FIXED, lo=2**40 + 3, hi=2**64 - 1)
        self.assertEqual(repr(one.limiter(1)), "StandingLimiter(limiter=<Limiter.FIXED: 3>, lo=1099511627779, hi=18446744073709551615)")
        self.assertEqual(one.limiter(0).limiter, 1)
        one.set_limiter(0, **one.limiter(1)._asdict())
        self.assertEqual(one.limiter(0), one.limiter(1))
        for absent in (-1, 2):
            with self.assertRaisesRegex(IndexError, "tracer -?[12] is not from 0 to 1"):
                one.limiter(absent)

    def test_books(self):
        one = puldeho.World(GRID._replace(n=2), AIR, TRACERS + [5] * 6)
        self.assertEqual([one.book(t) for t in range(2)], [(400, 0, 0), (30, 0, 0)])
        one.emission(0, 3, 50)
        one.add_emitter(tracer=0, cell=2, id=7, units=11)
        one.tick(0)
        one.withdrawal(0, 3, 20)
        one.zonal(0, 0, [0, 50, 0, 0])
        with self.assertRaises(puldeho.Refused):
            one.withdrawal(0, 3, 1000)
        book = one.book(0)
        self.assertEqual(repr(book), "Book(loaded=400, emitted=61, withdrawn=20)")
        self.assertEqual(book.loaded + book.emitted - book.withdrawn, one.total(0))
        self.assertEqual(one.book(1), puldeho.Book(loaded=30, emitted=0, withdrawn=0))
        again = puldeho.World(one.grid, one.air, one.tracers)
        self.assertEqual([again.book(t) for t in range(2)], [(441, 0, 0), (30, 0, 0)])
        for absent in (-1, 2):
            with self.assertRaisesRegex(IndexError, "tracer -?[12] is not from 0 to 1"):
                one.book(absent)

    def test_two_points_of_a_run(self):
        """The difference of two totals, read off the books."""
        one = world()
        one.emission(0, 3, 7)
        total, book = one.total(0), one.book(0)
        one.withdrawal(0, 3, 5)
        one.long_zonal(0, 0, [0, 50, 0, 0])
        one.emission(0, 2, 11)
        later = one.book(0)
        self.assertEqual(one.total(0) + later.withdrawn + book.emitted, total + book.withdrawn + later.emitted)
        self.assertEqual(later.loaded, book.loaded)

    def test_full_sums(self):
        one = puldeho.World(GRID, AIR, [0] * 6)
        for _ in range(16):
            one.emission(0, 2, puldeho.TOTAL_LIMIT)
            one.withdrawal(0, 2, puldeho.TOTAL_LIMIT)
        for amount in (puldeho.TOTAL_LIMIT, 16):
            with self.assertRaisesRegex(puldeho.Refused, "emission refused with 6 .*so at most 15 can be emitted until the next load") as caught:
                one.emission(0, 2, amount)
            self.assertNotIn("What to do", str(caught.exception))
        one.emission(0, 2, 15)
        one.emission(0, 2, 0)
        self.assertEqual(one.book(0), (0, puldeho.SUM_LIMIT, puldeho.SUM_LIMIT - 15))
        self.assertEqual((puldeho.SUM_LIMIT, one.total(0)), (2**32 - 1, 15))
        one.withdrawal(0, 2, 15)
        with self.assertRaisesRegex(puldeho.Refused, "refused with 7 .*has 0 of tracer 0.* What to do: .*withdraw at most what it has[.]$"):
            one.withdrawal(0, 2, 1)
        self.assertEqual(puldeho.World(GRID, one.air, one.tracers).book(0), (0, 0, 0))

    def test_emitters_and_limiters_again_after_a_load(self):
        """As the guide does it, after chemistry."""
        grid = GRID._replace(n=2)
        one = puldeho.World(grid, AIR, TRACERS + TRACERS)
        for tracer, stack, cell, units in ((0, 101, 3, 40), (1, 101, 3, 7), (0, 102, 3, 25), (0, 103, 5, 10)):
            one.add_emitter(tracer, cell, stack, units)
        one.remove_emitter(0, 101)
        one.set_limiter(1, puldeho.Limiter.FIXED, lo=7, hi=2**40)
        kept, limiters = one.ledger.tolist(), [one.limiter(t) for t in range(grid.n)]
        one = puldeho.World(grid, one.air, one.tracers)
        for t in range(grid.n):
            one.set_limiter(t, limiters[t].limiter, lo=limiters[t].lo, hi=limiters[t].hi)
            block = kept[t * puldeho.LEDGER_BLOCK:]
            for i in range(block[0]):
                one.add_emitter(tracer=t, id=block[3 + 3 * i], cell=block[4 + 3 * i], units=block[5 + 3 * i])
        self.assertEqual((one.ledger.tolist(), one.units_a_tick(0), one.units_a_tick(1)), (kept, 35, 7))

    def test_the_ledger_is_read_only(self):
        with self.assertRaisesRegex(TypeError, "read-only"):
            world().ledger[0] = 1

    def test_pairs(self):
        self.assertEqual(world().remap([(0, 0), (0, 65536)]), 6)

    def test_lists_stay(self):
        with self.assertRaises(AttributeError):
            world().air = array.array("I", AIR)

    def test_no_attributes_of_others(self):
        with self.assertRaises(AttributeError):
            world().mine = 1

    def test_any_buffer(self):
        one = puldeho.World(GRID, memoryview(array.array("I", AIR)), memoryview(array.array("I", TRACERS)))
        self.assertEqual(one.total(0), 400)
        fluxes = memoryview(array.array("i", [0, 50, 0, 0]).tobytes()).cast("i")
        self.assertTrue(fluxes.readonly)
        self.assertEqual(one.zonal(0, 0, fluxes), 1)


class Copies(unittest.TestCase):
    def test_a_copy_is_a_world_of_its_own(self):
        one = world()
        for second in (one.copy(), copy.copy(one), copy.deepcopy(one), pickle.loads(pickle.dumps(one))):
            second.zonal(0, 0, [0, 50, 0, 0])
            self.assertEqual((second.cell(0, 3), second.tracers[3]), (262, 262))
            self.assertEqual((one.cell(0, 3), one.tracers[3]), (200, 200))

    def test_a_copy_over_views(self):
        one = puldeho.World(GRID, memoryview(array.array("I", AIR)), memoryview(array.array("I", TRACERS)))
        second = one.copy()
        one.withdrawal(0, 3, 200)
        self.assertEqual((one.total(0), second.total(0)), (200, 400))


    def test_emitters_are_copied(self):
        one = world()
        one.add_emitter(0, 3, 7, 40)
        for second in (one.copy(), copy.copy(one), copy.deepcopy(one), pickle.loads(pickle.dumps(one))):
            second.add_emitter(0, 3, 8, 60)
            second.tick(0)
            self.assertEqual((second.units_a_tick(0), second.total(0)), (100, 500))
            self.assertEqual((one.units_a_tick(0), one.total(0)), (40, 400))
        kept = one.copy()
        one.remove_emitter(0, 7)
        one.restore(kept)
        self.assertEqual((one.units_a_tick(0), one.ledger), (40, kept.ledger))

    def test_limiters_are_copied(self):
        one = world()
        one.set_limiter(0, puldeho.Limiter.FIXED, lo=3, hi=2**40)
        for second in (one.copy(), copy.copy(one), copy.deepcopy(one), pickle.loads(pickle.dumps(one))):
            self.assertEqual(second.limiter(0), one.limiter(0))
            second.set_limiter(0, puldeho.Limiter.POSITIVE)
            self.assertEqual(one.limiter(0).limiter, puldeho.Limiter.FIXED)
            second.restore(one)
            self.assertEqual(second.limiter(0), one.limiter(0))

    def test_books_are_copied(self):
        one = world()
        one.emission(0, 3, 50)
        for second in (one.copy(), copy.copy(one), copy.deepcopy(one), pickle.loads(pickle.dumps(one))):
            second.withdrawal(0, 3, 20)
            self.assertEqual((second.book(0), one.book(0)), ((400, 50, 20), (400, 50, 0)))
            second.restore(one)
            self.assertEqual((second.book(0), second.total(0)), ((400, 50, 0), 450))

    def test_pickled_by_a_version_with_shorter_blocks(self):
        one = puldeho.World(GRID._replace(n=2), AIR, TRACERS + TRACERS)
        emitters, limiter = [1, 40, 0, 7, 3, 40] + [0] * 45, [3, 5, 0, 9, 0]
        one.__setstate__({"ledger": array.array("I", [0] * 51 + emitters)})
        self.assertEqual([(one.units_a_tick(t), one.limiter(t).limiter) for t in range(2)], [(0, 1), (40, 1)])
        one.__setstate__({"ledger": array.array("I", ([0] * 51 + limiter) + (emitters + limiter))})
        self.assertEqual([(one.units_a_tick(t), one.limiter(t)) for t in range(2)], [(0, (3, 5, 9)), (40, (3, 5, 9))])
        self.assertEqual([one.book(t) for t in range(2)], [(400, 0, 0)] * 2)
        with self.assertRaisesRegex(ValueError, "a later version has pickled this world"):
            one.__setstate__({"ledger": array.array("I", [0] * 2 * (puldeho.LEDGER_BLOCK + 1))})


class NotTaken(unittest.TestCase):
    def test_other_numbers(self):
        with self.assertRaisesRegex(TypeError, "air: wants 32-bit unsigned numbers.*'Q'"):
            puldeho.World(GRID, array.array("Q", AIR), array.array("I", TRACERS))
        with self.assertRaisesRegex(TypeError, "fluxes: wants 32-bit signed numbers.*'I'.*numpy.int32"):
            world().zonal(0, 0, array.array("I", [0, 50, 0, 0]))
        with self.assertRaisesRegex(TypeError, "fluxes: "):
            world().zonal(0, 0, [0, 50.5, 0, 0])

    def test_numbers_out_of_range(self):
        for cell, amount in ((-1, 1), (2**32, 1), (3, -1), (3, 2**32)):
            with self.assertRaisesRegex(ValueError, "is (below 0|above 4294967295)"):
                world().emission(0, cell, amount)
        with self.assertRaisesRegex(TypeError, "amount: 1.5 is not a whole number"):
            world().emission(0, 3, 1.5)
        for id, units in ((-1, 1), (2**32, 1), (1, -1), (1, 2**32)):
            with self.assertRaisesRegex(ValueError, "is (below 0|above 4294967295)"):
                world().add_emitter(0, 3, id, units)
        for lo, hi in ((-1, 1), (0, 2**64)):
            with self.assertRaisesRegex(ValueError, "is (below 0|above 18446744073709551615)"):
                world().set_limiter(0, puldeho.Limiter.FIXED, lo=lo, hi=hi)
        with self.assertRaisesRegex(TypeError, "lo: 0.5 is not a whole number"):
            world().set_limiter(0, puldeho.Limiter.FIXED, lo=0.5, hi=1)
        for bounds in ({}, {"lo": 0}, {"hi": 1}):
            with self.assertRaisesRegex(TypeError, "this limiter wants lo and hi: mixing ratios times 262144"):
                world().set_limiter(0, puldeho.Limiter.FIXED, **bounds)
        with self.assertRaisesRegex(TypeError, "positional"):
            world().set_limiter(0, puldeho.Limiter.FIXED, 0, 1)
        with self.assertRaisesRegex(OverflowError, "fluxes: "):
            world().zonal(0, 0, [0, 2**31, 0, 0])
        with self.assertRaisesRegex(OverflowError, "air: "):
            puldeho.World(GRID, [-1] * 6, TRACERS)

    def test_read_only_world(self):
        air = memoryview(array.array("I", AIR).tobytes()).cast("I")
        with self.assertRaisesRegex(ValueError, "air: the calls change it"):
            puldeho.World(GRID, air, TRACERS)

    def test_not_side_by_side(self):
        every_other = memoryview(array.array("I", [100] * 12))[::2]
        with self.assertRaisesRegex(ValueError, "air: the numbers do not lie side by side"):
            puldeho.World(GRID, every_other, TRACERS)

    def test_other_lists(self):
        with self.assertRaisesRegex(ValueError, r"fluxes: has the shape \(4, 2\), and wants \(2, 4\)"):
            world().meridional(0, [[0, 0]] * 4)
        self.assertEqual(world().meridional(0, [[0] * 4] * 2), 1)
        with self.assertRaisesRegex(TypeError, "fluxes: wants a list or an array, and has a dict"):
            world().zonal(0, 0, {0: 1, 1: 1, 2: 1, 3: 1})

    def test_shared_memory(self):
        both = memoryview(array.array("I", [100] * 11))
        with self.assertRaisesRegex(ValueError, "air and tracers share memory"):
            puldeho.World(GRID, both[:6], both[5:])
        one = world()
        with self.assertRaisesRegex(ValueError, "share memory"):
            one.zonal(0, 0, memoryview(one.air).cast("B").cast("i")[:4])


class Refusals(unittest.TestCase):
    def refused(self, number, call, *arguments):
        one = world()
        with self.assertRaises(puldeho.Refused) as caught:
            getattr(one, call)(*arguments)
        self.assertEqual((caught.exception.number, caught.exception.call), (number, call))
        self.assertEqual(caught.exception.refusal, puldeho.Refusal(number))
        self.assertEqual((one.air.tolist(), one.tracers.tolist()), (AIR, TRACERS))
        return caught.exception

    def test_numbers(self):
        self.refused(2, "zonal", 0, 0, [0, 50, 0])
        self.refused(5, "emission", 0, 6, 1)
        self.refused(6, "emission", 0, 0, 2**32 - 1)
        self.refused(7, "withdrawal", 0, 3, 201)
        self.refused(8, "zonal", 0, 0, [0, -(2**31), 0, 0])
        self.refused(9, "zonal", 0, 0, [0, 100, 0, 0])
        self.refused(10, "meridional", 0, [100, 0, 0, 0, 0, 0, 0, 0])
        self.refused(11, "remap", [0, 0, 0, 65535])
        self.refused(2, "long_zonal", 0, 0, [0, 50, 0])
        self.refused(8, "long_zonal", 0, 0, [0, 1048561, 0, 0])
        self.refused(16, "long_zonal", 0, 0, [401, 400, 400, 400])
        self.refused(17, "long_zonal", 0, 0, [100, 0, 0, 0])
        self.refused(5, "add_emitter", 0, 6, 7, 40)
        self.refused(5, "units_a_tick", 1)
        self.refused(19, "remove_emitter", 0, 7)
        self.refused(9, "count_zonal", 0, 0, [0, 100, 0, 0])
        self.refused(2, "count_zonal", 0, 0, [])
        counted = world().count_zonal(0, 0, [150] * 4)
        refused = self.refused(20, "zonal_with_count", counted._replace(substeps=1))
        self.assertIn("the sweep of layer 0, row 0 takes 2 substeps now, and the given count is 1, which does not serve", str(refused))
        self.assertNotIn("What to do", str(refused))
        self.refused(9, "zonal_with_count", counted._replace(fluxes=(0, 100, 0, 0)))

    def test_of_emitters(self):
        one = world()
        for number in range(16):
            one.add_emitter(0, 3, number, 2**32 - 1)
        for wanted, call, arguments, words in (
            (18, "add_emitter", (0, 4, 3, 1), "tracer 0 already has the id 3: emitter 3, in cell 3"),
            (18, "add_emitter", (0, 4, 16, 1), "tracer 0 has 16 emitters, no more may stand"),
            (19, "remove_emitter", (0, 16), "it has the ids 0, 1, 2, 3"),
            (6, "tick", (0,), "a tick gives 68719476720, the units of 16 emitters"),
        ):
            kept = one.copy()
            with self.assertRaises(puldeho.Refused) as caught:
                getattr(one, call)(*arguments)
            self.assertEqual(caught.exception.number, wanted)
            self.assertIn(words, caught.exception.why)
            self.assertEqual("What to do" in str(caught.exception), wanted != 18)
            self.assertEqual((one.tracers, one.ledger), (kept.tracers, kept.ledger))

    def test_of_a_broken_ledger(self):
        one = world()
        one.add_emitter(0, 3, 7, 40)
        one._kept["ledger"][1] = 41
        with self.assertRaisesRegex(puldeho.Refused, "tracer 0 has the sum 41 .*its 1 emitter sum to 40.*load again") as caught:
            one.tick(0)
        self.assertIn("in the ledger some tracer has", str(caught.exception))
        self.assertNotIn("What to do", str(caught.exception))
        self.assertEqual(one.total(0), 400)

    def test_of_limiters(self):
        one = world()
        for number, tracer, limiter, bounds, words in (
            (5, 1, 4, {}, "there is no tracer 1"),
            (21, 0, 4, {}, "there is no limiter 4, it may be 1 (present), 2 (positive) or 3 (fixed)"),
            (21, 0, 3, dict(lo=2, hi=1), "lo is 2 and above hi, which is 1; lo must be at most hi"),
        ):
            with self.assertRaises(puldeho.Refused) as caught:
                one.set_limiter(tracer, limiter, **bounds)
            self.assertEqual(caught.exception.number, number)
            self.assertIn(words, caught.exception.why)
            self.assertEqual("What to do" in str(caught.exception), number == 5)
            self.assertEqual(one.limiter(0), (1, 0, 0))
        one._kept["ledger"][51] = 9
        with self.assertRaisesRegex(puldeho.Refused, "zonal refused with 21 .*tracer 0 has the limiter 9 .*load again"):
            one.zonal(0, 0, [0, 50, 0, 0])
        self.assertEqual(one.total(0), 400)

    def test_of_books(self):
        one = world()
        one.tracers[3] += 1
        for call, arguments in ((one.total, (0,)), (one.emission, (9, 9, 9)), (one.zonal, (9, 9, [0] * 4)), (one.remap, ([1] * 4,))):
            with self.assertRaisesRegex(puldeho.Refused, "refused with 22 .*its cells sum to 401, 1 more; .*load again") as caught:
                call(*arguments)
            self.assertEqual(caught.exception.refusal, puldeho.Refusal.BOOKS)
            self.assertNotIn("What to do", str(caught.exception))
        self.assertEqual(one.book(0), (400, 0, 0))
        one.tracers[2] -= 1  # two changes that cancel each other are not noticed
        self.assertEqual(one.total(0), 400)
        one.tracers[2] += 1
        again = puldeho.World(GRID, one.air, one.tracers)
        self.assertEqual((again.total(0), again.book(0)), (401, (401, 0, 0)))

    def test_words(self):
        refused = self.refused(9, "zonal", 0, 0, [0, 100, 0, 0])
        self.assertIn("zonal refused with 9 (no count from 1 to 16 serves): cell 2", str(refused))
        self.assertNotIn("What to do", str(refused))
        self.assertTrue(refused.why.endswith("must diverge less at this cell"))
        self.assertNotIn("What to do", str(self.refused(10, "meridional", 0, [100, 0, 0, 0, 0, 0, 0, 0])))
        absent = str(self.refused(5, "total", 1))
        self.assertIn("total refused with 5 (the tracer, cell, layer or row is absent): there is no tracer 1", absent)
        self.assertIn("What to do: count from 0", absent)
        self.assertNotIn("ledger", absent)
        above = str(self.refused(6, "emission", 0, 0, 2**32 - 1))
        self.assertIn("tracer 0 has the total 400 and the amount is 4294967295", above)
        self.assertTrue(above.endswith("with their units in the larger unit."))
        for fluxes, number in ([401] * 4, 16), ([100, 0, 0, 0], 17):
            self.assertNotIn("What to do", str(self.refused(number, "long_zonal", 0, 0, fluxes)))
        self.assertIn("with 400 taken off every flux", self.refused(16, "long_zonal", 0, 0, [401] * 4).why)
        self.assertIn("column 1", refused.why)
        self.assertIn(refused.why, str(refused))

    def test_copied_and_pickled(self):
        refused = self.refused(5, "total", 1)
        for again in (copy.copy(refused), pickle.loads(pickle.dumps(refused))):
            self.assertEqual((str(again), again.number), (str(refused), 5))

    def test_load(self):
        for grid, air, tracers, number in (
            ((3, 1, 1, 1), AIR, TRACERS, 1),
            (GRID, [], [], 2),
            (GRID, AIR[1:], TRACERS, 2),
            (GRID, [0] + AIR[1:], TRACERS, 3),
            (GRID, AIR, [2**28] + [0] * 5, 4),
        ):
            with self.assertRaises(puldeho.Refused) as caught:
                puldeho.World(puldeho.Grid(*grid), air, tracers)
            self.assertEqual((caught.exception.number, caught.exception.call), (number, "load"))


class Limits(unittest.TestCase):
    def test_total(self):
        full = puldeho.World(GRID, AIR, [puldeho.TOTAL_LIMIT] + [0] * 5)
        self.assertEqual(full.total(0), 268435455)


class Grids(unittest.TestCase):
    def test_numbers(self):
        grid = puldeho.Grid(w=6, r=3, k=2, n=5)
        lengths = (grid.cells_in_layer, grid.air_length, grid.tracers_length)
        self.assertEqual(lengths, (20, 40, 200))
        self.assertEqual(grid.ledger_shape, (5, puldeho.LEDGER_BLOCK))
        self.assertEqual((grid.zonal_fluxes_length, grid.meridional_fluxes_length, grid.remap_table_length), (6, 24, 6))
        self.assertEqual((grid.long_zonal_fluxes_length, grid.long_zonal_fluxes_shape), (6, (6,)))
        self.assertEqual((grid.air_shape, grid.tracers_shape), ((2, 20), (5, 2, 20)))
        self.assertEqual((grid.cell_number(1, 2, 5), grid.south_cap(1), grid.north_cap(1)), (38, 20, 39))

    def test_count_of_a_remap(self):
        grid = puldeho.Grid(w=4, r=1, k=3, n=1)
        three = puldeho.World(grid, [100] * 18, [0] * 18)
        self.assertEqual(three.remap([0, 0, 150, 0, 200, 0, 0, 65536]), 24)

    def test_most_steps_of_a_remap(self):
        self.assertEqual(puldeho.Grid(w=72, r=44, k=32, n=8).most_remap_steps, 1623040)
        self.assertEqual(puldeho.Grid(w=4, r=1, k=3, n=1).most_remap_steps, 36)

    def test_absent_places(self):
        grid = puldeho.Grid(w=6, r=3, k=2, n=5)
        for place in ((2, 0, 0), (0, 3, 0), (0, 0, 6), (-1, 0, 0), (0, -1, 0), (0, 0, -1)):
            with self.assertRaises(IndexError):
                grid.cell_number(*place)
        with self.assertRaises(IndexError):
            grid.north_cap(2)
        with self.assertRaises(ValueError):
            puldeho.Grid(w=-4, r=1, k=1, n=1)


if __name__ == "__main__":
    unittest.main()
