"""The places of the labels of a picture's points."""
import unittest
from typing import List, Tuple

from explorer.labels import MARK, MOST_LINES, is_free, labels_of, meet, placed

Point = Tuple[float, float]


class LabelTest(unittest.TestCase):
    def labels(self, points: List[Tuple[float, float, str]]) -> List[List[str]]:
        """The lines of the labels of points, which are at the same places on paper."""
        return [label.lines for label in labels_of(points, [point[:2] for point in points])]

    def test_points_that_coincide_have_one_label(self) -> None:
        self.assertEqual(self.labels([(10, 10, "4, 8"), (10.5, 9.5, "8, 8"), (30, 10, "1, 1"), (10, 10, "4, 8")]),
                         [["4, 8", "8, 8"], ["1, 1"]])
        self.assertEqual(self.labels([(10, 10, ""), (30, 10, "")]), [])
        many = self.labels([(10, 10, str(number)) for number in range(9)])
        self.assertEqual((len(many[0]), many[0][-1]), (MOST_LINES, "and 4 more"))

    def test_no_label_lies_on_another_one_or_on_a_point(self) -> None:
        points: List[Point] = [(50 + 8 * number, 60 + 5 * (number % 3)) for number in range(12)]
        room = (0.0, 0.0, 400.0, 200.0)
        labels = labels_of([(x, y, f"{x}, {y}") for x, y in points], points)
        boxes = [label.box(place) for label, place in placed(labels, points, room)]
        self.assertEqual(len(boxes), 12)
        marks = [(x - MARK, y - MARK, x + MARK, y + MARK) for x, y in points]
        for number, box in enumerate(boxes):
            self.assertTrue(is_free(box, [*boxes[:number], *boxes[number + 1:], *marks], room), number)

    def test_where_there_is_no_room_a_label_is_beside_its_point(self) -> None:
        (label,) = labels_of([(10, 10, "a long label")], [(10, 10)])
        self.assertEqual([place for _, place in placed([label], [(10, 10)], (0, 0, 20, 20))], [next(label.places())])

    def test_meeting(self) -> None:
        self.assertTrue(meet((0, 0, 2, 2), (1, 1, 3, 3)))
        self.assertFalse(meet((0, 0, 2, 2), (2, 0, 3, 3)))


if __name__ == "__main__":
    unittest.main()
