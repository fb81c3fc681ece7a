"""Points of GeoJSON and of tables: what is read, and what is said of a file that cannot be read."""

import json
from typing import Any

from jinxbanyan.faults import Unfit
from jinxbanyan.points import Point, Points, read_points
from tests.running import FilesCase


def feature(coordinates: object, kind: str = "Point", **others: Any) -> dict[str, Any]:
    """A feature of GeoJSON."""
    return {"type": "Feature", "geometry": {"type": kind, "coordinates": coordinates}, **others}


def collection(*features: object, **others: Any) -> dict[str, Any]:
    """A collection of features."""
    return {"type": "FeatureCollection", "features": list(features), **others}


class Tables(FilesCase):
    def read(self, text: str, name: str = "outlets.csv") -> tuple[Point, ...]:
        read = read_points(str(self.text(text, name)))
        self.assertIsNone(read.crs)
        return read.points

    def assert_unfit(self, text: str, *words: str) -> None:
        with self.assertRaises(Unfit) as caught:
            self.read(text)
        for word in ("outlets.csv: ", *words):
            self.assertIn(word, str(caught.exception))

    def test_headers(self) -> None:
        for text in (
            "x,y,name\n1.5,-2,mill\n3,4,\n",
            "Name;Easting;Northing\nmill;1.5;-2\n;3;4\n",
            "N\tE\tid\n-2\t1.5\tmill\n4\t3\t\n",
            "\ufeffLON, LAT, Name\r\n 1.5, -2, mill\r\n3, 4\r\n",
            '\n"longitude","depth","latitude","id"\n"1.5","9","-2","mill"\n\n3,9,4,\n',
            "1.5,-2,mill\n3,4\n",
            "1.5;-2;mill;more, and more\n3;4;;\n",
            "1.5\t-2\tmill\tmore; and more\n3\t4\n",
            "x;y;name\n1,5;-2;mill\n3;4,0;\n",
            "1,5;-2;mill\n3;4\n",
            '1.5,-2,mill,"more; and more"\n3,4\n',
            'x, y, name, "depth; at night"\n1.5, -2, "mill"\n3, 4\n',
        ):
            with self.subTest(text=text):
                self.assertEqual(self.read(text), (Point(1.5, -2, "mill"), Point(3, 4)))

    def test_a_name_comes_before_an_id(self) -> None:
        self.assertEqual(self.read("id,name,y,x\n7,mill,2,1\n"), (Point(1, 2, "mill"),))

    def test_the_kind_is_told_by_the_suffix_and_else_by_the_content(self) -> None:
        self.assertEqual(self.read("1,2\n", "outlets"), (Point(1, 2),))
        self.assertEqual(self.read("1\t2\n", "outlets.TSV"), (Point(1, 2),))
        self.assertEqual(self.read("1,2\n", "outlets.txt"), (Point(1, 2),))
        self.assertEqual(self.read(json.dumps(feature([1, 2])), "outlets"), (Point(1, 2),))
        self.assertEqual(self.read(json.dumps(feature([1, 2])), "outlets.geojson"), (Point(1, 2),))
        with self.assertRaisesRegex(Unfit, "outlets.json: this is not JSON"):
            self.read("1,2\n", "outlets.json")

    def test_an_empty_table_has_no_points(self) -> None:
        self.assertEqual(self.read(""), ())
        self.assertEqual(self.read("x,y\n"), ())

    def test_faults_have_their_line(self) -> None:
        self.assert_unfit("\nx,depth\n1,2\n", "line 2: ", "neither with two numbers nor with a header")
        self.assert_unfit("1\n", "line 1: ", "neither with two numbers nor with a header")
        self.assert_unfit("x,y\n1,2\n\n1,two\n", "line 4: 'two' is not a number")
        self.assert_unfit("1,2\n1,nan\n", "line 2: 'nan' is not a number")
        self.assert_unfit("1,2\n1e999,1\n", "line 2: '1e999' is not a number")
        self.assert_unfit("x;y\n1,5;2,5,5\n", "line 2: '2,5,5' is not a number")
        self.assert_unfit("x,y\n1_000,2\n", "line 2: '1_000' is not a number")
        self.assert_unfit("1,2\n1\n", "line 2: a point has two coordinates")
        self.assert_unfit('1,2,a\n1,2,"b\n1,2,c\n', "line 3: ")

    def test_bytes_that_are_no_text(self) -> None:
        (self.here / "outlets.csv").write_bytes(b"x,y,name\n1,2,M\xfchle\n")
        with self.assertRaisesRegex(Unfit, "outlets.csv is not text in UTF-8"):
            read_points(str(self.here / "outlets.csv"))


class GeoJson(FilesCase):
    def read(self, whole: object) -> Points:
        return read_points(str(self.text(json.dumps(whole), "outlets.geojson")))

    def assert_unfit(self, whole: object, words: str) -> None:
        with self.subTest(whole=whole):
            with self.assertRaises(Unfit) as caught:
                self.read(whole)
            self.assertIn(f"outlets.geojson: {words}", str(caught.exception))

    def test_every_form(self) -> None:
        both = (Point(1, 2), Point(3, 4.5))
        several = {"type": "MultiPoint", "coordinates": [[1, 2], [3, 4.5, 700]]}
        for whole in (
            several,
            {"type": "Feature", "properties": None, "geometry": several},
            collection(feature([1, 2]), feature([3, 4.5])),
            collection({"type": "Feature", "geometry": several}),
        ):
            with self.subTest(whole=whole):
                self.assertEqual(self.read(whole), Points(both))
        self.assertEqual(self.read({"type": "Point", "coordinates": [1, 2]}), Points(both[:1]))
        self.assertEqual(self.read(collection()), Points(()))

    def test_names(self) -> None:
        cases: tuple[tuple[dict[str, Any], str | None], ...] = (
            ({"properties": {"name": "mill"}, "id": 7}, "mill"),
            ({"properties": {"name": 12}}, "12"),
            ({"properties": {"name": None}, "id": 7}, "7"),
            ({"properties": {"name": ""}, "id": "seven"}, "seven"),
            ({"properties": {"title": "mill"}}, None),
        )
        for others, name in cases:
            with self.subTest(others=others):
                self.assertEqual(self.read(feature([1, 2], **others)), Points((Point(1, 2, name),)))

    def test_the_system_that_is_named(self) -> None:
        named = {"type": "name", "properties": {"name": "EPSG:2056"}}
        self.assertEqual(self.read(collection(feature([1, 2]), crs=named)), Points((Point(1, 2),), "EPSG:2056"))
        self.assertIsNone(self.read(collection(feature([1, 2]), crs=None)).crs)
        self.assert_unfit(collection(crs={"type": "link", "properties": {"href": "x"}}), "its crs names no")
        self.assert_unfit(collection(crs="EPSG:2056"), "its crs names no")

    def test_faults_have_their_feature(self) -> None:
        one = feature([1, 2])
        self.assert_unfit([1, 2], "this is not GeoJSON")
        self.assert_unfit({"type": "FeatureCollection"}, "the FeatureCollection has no features")
        self.assert_unfit({"type": "LineString", "coordinates": [[1, 2], [3, 4]]}, "feature 1: its geometry is")
        self.assert_unfit(collection(one, feature([[1, 2]], "Polygon")), "feature 2: its geometry is neither")
        self.assert_unfit(collection(one, {"type": "Feature", "geometry": None}), "feature 2: its geometry is")
        self.assert_unfit(collection(one, one["geometry"]), "feature 2: it is not a Feature")
        self.assert_unfit(collection(one, 5), "feature 2: it is not a Feature")
        self.assert_unfit(collection(feature([])), "feature 1: a point has two coordinates")
        self.assert_unfit(collection(feature({}, "MultiPoint")), "feature 1: it has no coordinates")
        self.assert_unfit(collection(feature(["1", 2])), "feature 1: '1' is not a number")
        self.assert_unfit(collection(feature([1, True])), "feature 1: True is not a number")
        self.assert_unfit(collection(feature([1, 10**400])), "feature 1: 1000")
        self.assert_unfit(collection(feature([float("nan"), 2])), "feature 1: nan is not a number")

    def test_what_is_nested_without_end(self) -> None:
        with self.assertRaisesRegex(Unfit, "this is not JSON"):
            read_points(str(self.text('{"a":' + "[" * 200_000, "outlets.geojson")))
