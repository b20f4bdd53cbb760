"""Tests of tools/json and of its schema."""
import itertools
import json
import os
from typing import Any

from tools.tests import support
from tools.tests.support import FLOW, FLOW_TURNED, REFUSED, SCRIPT, TOOLS, all_listings, example, held, tried

# The words with which listings are written as JSON.
WAYS: tuple[list[str], ...] = ([], ["--tree"], ["--list", "--indent", "1"])


class Json(support.ToolCase):
    """What is written holds each fragment, and is what the schema says."""

    def test_listings_as_json(self) -> None:
        schema = validator()
        inputs = [held(path) for path in all_listings()[::9]] + [SCRIPT, REFUSED, held(example("signs")) + REFUSED, FLOW, FLOW + FLOW_TURNED]
        for given, words in itertools.product(inputs, WAYS):
            ended = tried("json", *words, given=given)
            said = json.loads(ended.out)
            self.same((ended.status, ended.said), (0, ""), f"json {words}")
            parts = said if isinstance(said, list) else [said]
            self.same(sum(map(count_fragments, parts)), count_lines(given), f"json {words}: fragments")
            if schema:
                self.hold(schema.is_valid(said), f"json {words}: the schema")

    def test_clusters(self) -> None:
        said = json.loads(tried("json", example("two_digits_combined")).out)
        run = next(each for each in said["fragments"] if each["kind"] == "run" and each["orientation"] == "c")
        self.same(run["clusters"], [["1"], ["2"]], "json: the clusters of a combined run")

    def test_flows(self) -> None:
        said = json.loads(tried("json", given=FLOW).out)
        head = {key: said[key] for key in said if key != "fragments"}
        self.same(head, {"inline": 6400, "block": 3200, "direction": "rtl"}, "json: what a flow says")
        self.same(said["fragments"][3]["orientation"], "-", "json: how text stands in a flow")

    def test_what_the_schema_refuses(self) -> None:
        """The schema refuses what no listing says."""
        schema = self.schema()
        said = json.loads(tried("json", example("two_digits_combined")).out)
        run = next(each for each in said["fragments"] if each["kind"] == "run" and each["orientation"] == "c")
        for field in ("natural", "clusters", "node", "level"):
            less = {key: run[key] for key in run if key != field}
            self.hold(not schema.is_valid(said | {"fragments": [less]}), f"schema: no {field}")
        for field, value in (("natural", -1), ("orientation", "x"), ("more", 1), ("clusters", [["12"]]), ("clusters", [])):
            self.hold(not schema.is_valid(said | {"fragments": [run | {field: value}]}), f"schema: {field} {value}")

    def schema(self) -> Any:
        """The schema, or an end of the test where the package for it isn't installed."""
        return validator() or self.skipTest("the schema: there is no package python3-jsonschema")


def validator() -> Any:
    try:
        import jsonschema
    except ImportError:
        return None
    schema = json.loads(held(os.path.join(TOOLS, "listing.schema.json")))
    jsonschema.Draft7Validator.check_schema(schema)
    return jsonschema.Draft7Validator(schema)


def count_fragments(said: dict[str, Any]) -> int:
    return sum(1 + count_fragments(each) for each in said.get("fragments", []))


def count_lines(text: str) -> int:
    return sum(line.startswith(("box ", "line ", "span ", "run ")) for line in text.splitlines())
