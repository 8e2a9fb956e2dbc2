"""By which cuts it is seen whether a command's writes of a line gave it the bytes that it had."""
import unittest
from typing import List, Tuple

from explorer.same_bytes import Unsettled, cuts_within


class CutsWithinTest(unittest.TestCase):
    def cuts(self, *unsettled: Tuple[int, int, int]) -> List[Tuple[int, List[Tuple[int, int]]]]:
        """The cuts, with what each shows."""
        return list(cuts_within([Unsettled(*each) for each in unsettled]))

    def test_one_cut_shows_all_that_it_can(self) -> None:
        self.assertEqual(self.cuts(), [])
        self.assertEqual(self.cuts((3, 1024, 6), (1, 1302, 4), (2, 0, 9)), [(4, [(1, 1302), (3, 1024), (2, 0)])])
        self.assertEqual(self.cuts((1, 7, 1), (2, 7, 2), (3, 7, 5)), [(1, [(1, 7)]), (2, [(2, 7)]), (5, [(3, 7)])])

    def test_each_is_shown_once_by_a_cut_within_its_bounds(self) -> None:
        unsettled = [(number, line, number + 1 + (number * line) % 5) for number in range(1, 30) for line in (3, 4, 5)]
        cuts = self.cuts(*unsettled)
        shown = [(number, line) for _, each in cuts for number, line in each]
        self.assertEqual(sorted(shown), sorted((number, line) for number, line, _ in unsettled))
        last = {(number, line): end for number, line, end in unsettled}
        for cut, each in cuts:
            for number, line in each:
                self.assertTrue(number <= cut <= last[number, line])
        self.assertLess(len(cuts), 16)


if __name__ == "__main__":
    unittest.main()
