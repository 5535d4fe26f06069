"""Wrong edits of the analysis, of the exact results and of the translation of Python rules, each of which a test must
notice. Run it by hand, in `python/`, with the libraries of the analysis:

    python3 -m tests.mutants            # all, which takes some minutes
    python3 -m tests.mutants means.py   # those of one file
    python3 -m tests.mutants _rules/    # those of one folder

It names the first test that fails, and ends with status 1 if there is an edit that no test noticed."""
import multiprocessing
import os
import shutil
import sys
import tempfile
import unittest
from pathlib import Path
from typing import NamedTuple

from trlab import find_program

TOP = Path(__file__).resolve().parents[1]


class Mutant(NamedTuple):
    """A wrong edit: a file of the package, a text in it, and the replacement of the first place that has this text."""

    file: str
    old: str
    new: str

    def is_possible(self) -> bool:
        """Whether the file has the text."""
        return self.old in (TOP / "trlab" / self.file).read_text("utf-8")


TESTS = {
    "_analysis/means.py": [
        "test_frames.Misreadings", "test_frames.Strangers", "test_estimates.Lifetimes", "test_tidy",
        "test_frames.Means",
    ],
    "_analysis/repetitions.py": ["test_frames.Misreadings", "test_frames.Strangers", "test_tidy", "test_frames.Means"],
    "_analysis/columns.py": ["test_tidy", "test_frames.Strangers", "test_frames.Means"],
    "_analysis/frames.py": ["test_tidy", "test_grid", "test_frames.Means"],
    "_analysis/rows.py": ["test_tidy", "test_grid"],
    "_analysis/peak.py": ["test_estimates.Peaks"],
    "_analysis/peak_fits.py": ["test_estimates.Peaks"],
    "_analysis/branches.py": ["test_frames.Misreadings"],
    "_analysis/lifetimes.py": ["test_estimates.Lifetimes"],
    "_analysis/series.py": ["test_estimates.Lifetimes"],
    "_analysis/units.py": ["test_units", "test_frames.Strangers"],
    "_analysis/plots.py": ["test_plots"],
    "_results/blocking.py": ["test_blocking"],
    "_results/series.py": ["test_blocking", "test_drift"],
    "_exact/stationary.py": ["test_exact_results.StationaryState"],
    "_exact/triangle.py": ["test_exact_results.Triangle"],
    "_exact/minimum.py": ["test_exact_results.MinimumPrinciple"],
    "_exact/rules.py": ["test_exact_results.MinimumPrinciple", "test_exact_results.Triangle"],
    "_studies/grid.py": ["test_grid", "test_tidy", "test_frames.Strangers"],
    "_studies/roads.py": ["test_tidy", "test_grid", "test_frames.Strangers"],
    **dict.fromkeys(
        (f"_rules/{path.name}" for path in (TOP / "trlab" / "_rules").glob("*.py")),
        ["test_rules.Values", "test_rules.Words", "test_rules.Published", "test_rules.Idioms", "test_rules.Files",
         "test_rules.Errors", "test_rules.Random"],
    ),
}
"""The tests that have to notice an edit of a file, the fast ones first."""

ABOUT = "[input.limit, input.lanes, cells, start, rules, input.steps]"
"""The parameters that repetitions of a job share."""

MUTANTS = list(map(Mutant._make, [
    # Means and their errors.
    ("_analysis/means.py", "squares / (count - 1) / count", "squares / count / count"),
    ("_analysis/means.py", "squares / (count - 1) / count", "squares / (count - 1)"),
    ("_analysis/means.py", "numpy.bincount(group, values - first[group]) / count",
     "numpy.bincount(group, values - first[group])"),
    ("_analysis/means.py", "first[group[::-1]] = values[::-1]", "pass"),
    ("_analysis/means.py", "(values - mean[group]) ** 2", "abs(values - mean[group])"),
    ("_analysis/means.py", "    _need_ends(frame, chosen)\n    if not mixed", "    if not mixed"),
    ("_analysis/means.py", "if clash:", "if False:"),
    ("_analysis/means.py", "{*IDENTITY, *COUNTS, *LANE_SUMS,", "{*IDENTITY,"),
    ("_analysis/means.py", "groups[sums].sum()", "groups[sums].mean()"),
    ("_analysis/means.py", "groups[sums].sum()", "groups[sums].first()"),
    ("_analysis/means.py", "    _need_consecutive(windows)\n    groups", "    groups"),
    ("_analysis/means.py", "if strange_columns or not set(COUNTS)", "if not set(COUNTS)"),
    ("_analysis/means.py", "grouped(rows, [*names, *IDENTITY])", "grouped(rows, [*names])"),
    ("_analysis/means.py", "    for name in (\"step\", \"cars\", \"cells\", *sums):\n        numbers(windows, name)\n",
     ""),
    # Which rows are repetitions.
    ("_analysis/repetitions.py", "if not {*IDENTITY} <= set(frame):", "if False:"),
    ("_analysis/repetitions.py", "    _need_results(frame)\n    rows", "    rows"),
    ("_analysis/repetitions.py", "if not all(are_texts) or rows[\"road\"].isna().any():", "if False:"),
    ("_analysis/repetitions.py", "if not all(are_texts) or rows", "if rows"),
    ("_analysis/repetitions.py", "if name == \"step\":", "if False:"),
    ("_analysis/repetitions.py", "    if doubled.any():", "    if False:"),
    ("_analysis/repetitions.py", "if rows[RUN].assign(group=groups.group_of_row).duplicated().any():", "if False:"),
    ("_analysis/repetitions.py", "rows[RUN].assign(group=groups.group_of_row)",
     "rows[[\"road\"]].assign(group=groups.group_of_row)"),
    ("_analysis/repetitions.py", "    _need_same(groups)\n", ""),
    ("_analysis/repetitions.py", "(\"ensemble\", \"cars\", \"cells\", \"steps\")", "(\"cars\", \"cells\", \"steps\")"),
    ("_analysis/repetitions.py", "(\"ensemble\", \"cars\", \"cells\", \"steps\")",
     "(\"ensemble\", \"cars\", \"cells\")"),
    ("_analysis/repetitions.py", "(\"ensemble\", \"cars\", \"cells\", \"steps\")",
     "(\"ensemble\", \"cells\", \"steps\")"),
    ("_analysis/repetitions.py", "if not unequal:", "if False:"),
    ("_analysis/repetitions.py", "wrong = ~numpy.isfinite(values)", "wrong = numpy.isnan(values)"),
    ("_analysis/repetitions.py", "wrong = ~numpy.isfinite(values)", "wrong = numpy.isinf(values)"),
    ("_analysis/repetitions.py", "wrong &= ~(numpy.isnan(values) & _without_cars(groups.rows))",
     "wrong &= ~numpy.isnan(values)"),
    ("_analysis/repetitions.py", "    if name in PER_CAR:\n", "    if True:\n"),
    ("_analysis/repetitions.py", "if name in PER_CAR:", "if False:"),
    ("_analysis/repetitions.py", "dropna=False, observed=True).ngroup()", "observed=True).ngroup()"),
    # Counts and the values that follow from them.
    ("_analysis/columns.py", "counts[name].astype(float) for", "counts[name] for"),
    ("_analysis/columns.py", "distance / (cells * steps)", "distance / (cars * steps)"),
    ("_analysis/columns.py", "distance / (cells * steps)", "1e6 * distance / (cells * steps)"),
    ("_analysis/columns.py", "\"density\": cars / cells", "\"density\": cars / cells / 2"),
    ("_analysis/columns.py", "stopped / car_steps", "stopped / cells"),
    ("_analysis/columns.py", " and not types.is_complex_dtype(column)", ""),
    ("_analysis/columns.py", "isinstance(value, (Real, Decimal, numpy.bool_))",
     "isinstance(value, (Real, Decimal, numpy.bool_, str))"),
    # Results as frames.
    ("_analysis/frames.py", "if not (keep and isinstance(error, NoRows)):", "if not keep:"),
    ("_analysis/frames.py", "    errors.update((place, \"no result yet\") for place in missing)\n", ""),
    ("_analysis/frames.py", "roads[\"cars\"][0] / roads[\"cells\"] for roads",
     "float(as_fraction(value)) for value, roads in zip(choices.density, runs.values()) for _ in [0] if True or roads"),
    ("_analysis/frames.py", "    _check_units(frame)\n    return", "    return"),
    ("_analysis/columns.py", "(values < 0) | (values > maximum)", "values > maximum"),
    ("_analysis/columns.py", "(values < 0) | (values > maximum)", "values < 0"),
    ("_analysis/columns.py", "if not numpy.allclose(", "if False and not numpy.allclose("),
    ("_analysis/units.py", "    _need_units(flat, names_to_convert)\n", ""),
    ("_analysis/means.py", "if name := strange_value(rows)", "if name := \"\""),
    ("_analysis/means.py", "(level=\"ensemble\").nunique() > 1)", "(level=\"ensemble\").nunique() > 9)"),
    ("_analysis/repetitions.py", "if drawn:", "if True:"),
    ("_analysis/repetitions.py", "if unit := wrong_unit(", "if unit := \"\" and wrong_unit("),
    ("_studies/roads.py", "return [f\"-{_digest(road)}\" for road", "return [\"-\" for road"),
    ("_studies/grid.py", "        if name in chosen and chosen[name] != used:", "        if False:"),
    ("_analysis/peak.py", "max(1.0, fits[number].chi2 / fits[number].freedom)", "1.0"),
    ("_analysis/frames.py", ".sort_index(kind=\"stable\")", ""),
    ("_analysis/frames.py", "return list(enumerate(ensembles))", "return [(0, it) for it in ensembles]"),
    ("_analysis/frames.py", "return list(enumerate(ensembles))", "return [(at, \"\") for at in range(len(ensembles))]"),
    ("_analysis/frames.py", "numpy.array_equal(frame[\"requested_density\"], frame[\"density\"])", "True"),
    ("_analysis/rows.py", "    _check_names(rows, names)\n", ""),
    ("_analysis/rows.py", "    _check_roads(rows, roads)\n", ""),
    ("_analysis/rows.py", "    _check_levels(rows)\n", ""),
    ("_analysis/rows.py", "if not len(rows.content):", "if False:"),
    ("_analysis/rows.py", "if rows.is_of_points and len(rows.content) != count:", "if False:"),
    ("_analysis/rows.py", "differences = measured - expected if rows.is_of_points",
     "differences = measured - expected[::-1] if rows.is_of_points"),
    ("_analysis/rows.py", "    if isinstance(item, Snapshot):\n", "    if False:\n"),
    ("_analysis/rows.py", "if items and all(isinstance(item, kind) for item in items):", "if False:"),
    ("_analysis/rows.py", "value.item() if isinstance(value, numpy.generic) else value",
     "None if isinstance(value, numpy.bool_) else value"),
    # Estimates.
    ("_results/blocking.py", "BLOCKS = 16", "BLOCKS = 4"),
    ("_results/blocking.py", "    if drift.is_drifting:\n", "    if False:\n"),
    ("_results/blocking.py", "len(values) - BLOCKS * length", "0"),
    ("_results/blocking.py", "stdev(blocks) / sqrt(BLOCKS)", "stdev(blocks) / BLOCKS"),
    ("_results/series.py", "after.step != before.step + after.steps or", ""),
    ("_results/series.py", "or after[1:4] != before[1:4]", ""),
    ("_analysis/peak_fits.py", "self._scale = (n - 3) / (n - 1)", "self._scale = (n - 1) / (n - 3)"),
    ("_analysis/peak.py", "    if not rows.duplicated(RUN).any():\n", "    if True:\n"),
    ("_analysis/peak.py", "numpy.cov(by_key.to_numpy().T)) / len(by_key)", "numpy.cov(by_key.to_numpy().T))"),
    ("_analysis/peak.py", "part[f\"{y}_sem\"].to_numpy() ** 2", "part[f\"{y}_sem\"].to_numpy()"),
    ("_analysis/peak.py", "SIGNIFICANT = 3", "SIGNIFICANT = 0"),
    ("_analysis/peak.py", "if not all((falls[side]", "if not any((falls[side]"),
    ("_analysis/peak.py", "numpy.exp((criteria.min() - criteria) / 2)", "numpy.exp(criteria.min() - criteria)"),
    ("_analysis/peak.py", "LEAST_RUNS = 5", "LEAST_RUNS = 1"),
    ("_analysis/lifetimes.py", "abs(z) > MAX_Z", "z > MAX_Z"),
    ("_analysis/lifetimes.py", "    ends[-1] = False\n", ""),
    ("_analysis/branches.py", "_are_in_two_groups(flows) or", ""),
    ("_analysis/branches.py", "or flows.std(ddof=1) >= MAX_SCATTER * flows.mean()", ""),
    ("_analysis/peak.py", "if best.chi2 > best.freedom + 3 * math.sqrt(2 * best.freedom):", "if False:"),
    ("_analysis/peak.py", "x_variance + (x - mean_x) ** 2", "x_variance"),
    ("_analysis/peak_fits.py", "x_shape=(after - before) / 2, y_shape=1.2 * y_range,", ""),
    ("_analysis/peak.py", "math.sqrt(top.x_variance) * width", "math.sqrt(top.x_variance)"),
    ("_analysis/peak.py", "if (part[f\"{y}_sem\"] == 0).any():", "if False:"),
    ("_analysis/lifetimes.py", "mean = float(time.sum() / ends)", "mean = float(time.mean())"),
    ("_analysis/lifetimes.py", "mean / math.sqrt(ends)", "mean / math.sqrt(len(time))"),
    ("_analysis/lifetimes.py", "if not ends:", "if False:"),
    ("_analysis/lifetimes.py", "lives[\"size\"][::-1].cumsum()[::-1]", "lives[\"sum\"][::-1].cumsum()[::-1]"),
    ("_analysis/lifetimes.py", "(at_risk * (at_risk - ends))", "(at_risk * at_risk)"),
    ("_analysis/lifetimes.py", "terms.cumsum(skipna=False)", "terms"),
    ("_analysis/lifetimes.py", "    _need_one_input(time)\n", ""),
    ("_analysis/lifetimes.py", "if not (values > 0).all():", "if False:"),
    ("_analysis/lifetimes.py", "if not numpy.isin(ends, [0, 1]).all():", "if False:"),
    ("_analysis/lifetimes.py", "and not time.index.equals(end.index)", "and False"),
    ("_analysis/series.py", "if not numpy.isfinite(values).all():", "if False:"),
    # Units and plots.
    ("_analysis/units.py", "    if converted_before:\n", "    if False:\n"),
    ("_analysis/units.py", "flow, speed = 3600 / step, 3.6 * cell / step",
     "flow, speed = 3600 * step, 3.6 * cell / step"),
    ("_analysis/units.py", "flow, speed = 3600 / step, 3.6 * cell / step", "flow, speed = 3600 / step, 3.6 * cell"),
    ("_analysis/units.py", "\"density_per_km\": 1000 / cell", "\"density_per_km\": 1000 * cell"),
    ("_analysis/units.py", "for ending in (\"\", \"_sem\")}", "for ending in (\"\",)}"),
    ("_analysis/plots.py", "yerr=curve[f\"{y}_sem\"]", "yerr=2 * curve[f\"{y}_sem\"]"),
    ("_analysis/plots.py", "if flat.duplicated(shown).any():", "if False:"),
    ("_analysis/plots.py", "if (numpy.isnan(errors) & ~numpy.isnan(values)).any():", "if False:"),
    ("_analysis/plots.py", "if old not in (\"\", new):", "if False:"),
    ("_analysis/plots.py", "curve = curve.sort_values(x, kind=\"stable\")", "pass"),
    ("_analysis/plots.py", "steps[-1] + half, steps[0] - half", "steps[0] - half, steps[-1] + half"),
    # Grids.
    ("_studies/grid.py", "            self._check_densities()\n", "            pass\n"),
    ("_studies/grid.py",
     "            if other is not place:\n                raise ParameterError(\n                    f\"`make`",
     "            if False:\n                raise ParameterError(\n                    f\"`make`"),
    ("_studies/grid.py", "if len(unused) > 1:", "if False:"),
    ("_studies/grid.py", "            _check_roads(place._asdict(), self._runs[place])\n", "            pass\n"),
    ("_studies/grid.py", "if name in _TAKEN or", "if"),
    ("_studies/grid.py", "        if strange:\n", "        if False:\n"),
    ("_studies/roads.py", ABOUT, "[input.lanes, cells, start, rules, input.steps]"),
    ("_studies/roads.py", ABOUT,
     "[input.limit, input.lanes, cells, start, input.steps]"),
    ("_studies/roads.py", ABOUT, "[input.limit, input.lanes, cells, start, rules]"),
    ("_studies/roads.py", ABOUT,
     "[input.limit, input.lanes, cells, rules, input.steps]"),
    ("_studies/roads.py", "[input.start.placement, input.start.speed]",
     "[input.start.placement, input.start.speed, input.start.seed]"),
    ("_studies/roads.py", "[is_sweep, count, *about]", "[is_sweep, *about]"),
    ("_studies/roads.py", "key_digits(input.key).lower()", "\"0\" * 64"),
    # The stationary state.
    ("_exact/stationary.py", "Fraction(parts(probability(\"brake\", brake)), ALWAYS)",
     "Fraction(probability(\"brake\", brake))"),
    ("_exact/stationary.py", "splits * self.cars // k", "splits * self.empty // k"),
    ("_exact/stationary.py", "(self.cars - k) * (self.empty - k) // (k * k)",
     "(self.cars - k) * self.empty // (k * k)"),
    ("_exact/stationary.py", "self.brake.numerator ** (most - k)", "self.brake.numerator ** k"),
    ("_exact/stationary.py", "(1 - ring.brake) * Fraction(", "Fraction("),
    ("_exact/stationary.py", "+ term.splits * power", "+ term.splits"),
    ("_exact/stationary.py", "roads + term / k\n", "roads + term\n"),
    ("_exact/stationary.py", "if term < NEGLIGIBLE:", "if term < 1e-9:"),
    ("_exact/stationary.py", "yield k + 1, term", "yield k, term"),
    ("_exact/stationary.py", "range(largest - 1, 0, -1)", "range(largest - 1, 1, -1)"),
    ("_exact/stationary.py", "cell != \".\" and ahead == \".\"", "cell != \".\" and ahead != \".\""),
    ("_exact/stationary.py", "self.brake == 0 and self.cars > self.empty", "False"),
    ("_exact/stationary.py", "if len(lanes) != 1:", "if False:"),
    # The triangle.
    ("_exact/triangle.py", "min(fastest * exact_density, 1 - exact_density)", "fastest * exact_density"),
    ("_exact/triangle.py", "max(delay, delay - 1 + steps_of_one_car)", "max(delay, delay + steps_of_one_car)"),
    ("_exact/triangle.py", "max(delay, delay - 1 + steps_of_one_car)", "delay - 1 + steps_of_one_car"),
    ("_exact/triangle.py", "-(-min(fastest * count, cells - count) // fastest)",
     "min(fastest * count, cells - count) // fastest"),
    # The minimum principle.
    ("_exact/minimum.py", "= 0, min(time, cars - 1)", "= 0, min(time, cars - 2)"),
    ("_exact/minimum.py", "max(0, time - cars + 1)", "max(0, time - cars + 2)"),
    ("_exact/minimum.py", "if rising[0] <= place - size:", "if rising[0] < place - size:"),
    ("_exact/minimum.py", "values[rising[-1]] >= value", "values[rising[-1]] <= value"),
    ("_exact/minimum.py", "- sums[car] + low", "+ low"),
    ("_exact/minimum.py", "(after - cell - 1) % len(lane)", "(after - cell) % len(lane)"),
    ("_exact/minimum.py", "min(steps_to_accelerate(job.rule, job.limit), time)", "0"),
    ("_exact/minimum.py", "len({job.rule, *job.at.values()}) > 1", "False"),
    ("_exact/minimum.py", "sorted(car.cell for car in cars)", "[car.cell for car in cars]"),
    ("_exact/minimum.py", "(cell + distance) % len(lanes[0])", "cell + distance"),
    # The rules that are known exactly.
    ("_exact/rules.py", "return limit if limit > 1 and braking_of_nasch(rule) == 0 else 0", "return 0"),
    ("_exact/rules.py", "limit if limit > 1 and ", "limit if "),
    ("_exact/rules.py", " and parts(rule.brake) == parts(rule.stopped)", ""),
    ("_exact/rules.py", " and parts(rule.change) == 0", ""),
    ("_exact/rules.py", "if not is_exact(rule):", "if False:"),
    # Rules as Python functions: numbers below 0.
    ("_rules/pairs.py", "held(number.minus)], divisor - 1)", "held(number.minus)], 0)"),
    ("_rules/pairs.py", "self.excess(minus, plus), self._emitter.place)", "0)"),
    ("_rules/pairs.py", "else Number(minus, plus, self._emitter.place)", "else Number(plus, minus)"),
    ("_rules/pairs.py", "opposite = \"max\" if name == \"min\" else \"min\"", "opposite = name"),
    ("_rules/pairs.py", "return self._extreme_part(\"max\", (number.plus, number.minus))", "return number.plus"),
    ("_rules/pairs.py", "or name == \"min\" and best_constant == 0", "or best_constant == 0"),
    ("_rules/pairs.py", "max(-terms.constant, 0)", "max(terms.constant, 0)"),
    ("_rules/pairs.py", "return Number(self.excess(plus, minus))", "return Number(self.excess(minus, plus))"),
    ("_rules/pairs.py", "of_plus - of_minus", "of_plus + of_minus"),
    ("_rules/pairs.py", "self.constant - other.constant", "self.constant + other.constant"),
    ("_rules/pairs.py", "self.minus + other.plus,", "self.minus,"),
    ("_rules/pairs.py", "if by == 0:\n            return 0", "if by == 0:\n            return 1"),
    ("_rules/expressions.py", "left - (ZERO - right)", "left - right"),
    ("_rules/expressions.py", "inner if isinstance(node.op, ast.UAdd) else ZERO - inner", "inner"),
    ("_rules/expressions.py", "        if minus is variable.plus:\n", "        if False:\n"),
    ("_rules/statements.py", "if value.minus != 0 and self.emitter.is_live:", "if False:"),
    # Conditions.
    ("_rules/pairs.py", "if isinstance(operator, (ast.Gt, ast.GtE)):", "if isinstance(operator, ast.Gt):"),
    ("_rules/pairs.py", "target, when == isinstance(operator, ast.Eq)", "target, when != isinstance(operator, ast.Eq)"),
    ("_rules/pairs.py", "right, left, target, when, may_be_equal=True", "right, left, target, when, may_be_equal=False"),
    ("_rules/pairs.py", "high + 1 if may_be_equal else high", "high + 1"),
    ("_rules/pairs.py", "low if may_be_equal else low + 1", "low"),
    ("_rules/pairs.py", "\"jlt\" if may_be_equal else \"jle\", None, high",
     "\"jle\" if may_be_equal else \"jle\", None, high"),
    ("_rules/pairs.py", "\"jle\" if may_be_equal else \"jlt\", None, low",
     "\"jle\" if may_be_equal else \"jle\", None, low"),
    ("_rules/conditions.py", "self.branch(part, skip, not when)", "self.branch(part, skip, when)"),
    ("_rules/conditions.py", "skip if when else target, False", "target, False"),
    ("_rules/conditions.py", "isinstance(node.op, ast.Or))\n        self.emitter.label(end)",
     "isinstance(node.op, ast.And))\n        self.emitter.label(end)"),
    ("_rules/conditions.py", "self.emitter.new(\"copy\", registers[0])", "registers[0]"),
    ("_rules/conditions.py", " and self._is_truth(parts[-1]):", ":"),
    ("_rules/conditions.py", "return all(self._is_truth(part)", "return any(self._is_truth(part)"),
    ("_rules/conditions.py", "self.emitter.emit(\"and\", result, result, self.emitter.new(\"not\", result))", "pass"),
    ("_rules/conditions.py", "jump_at_order(1, self.numbers.size(value),", "jump_at_order(1, value.plus,"),
    # Words, calls and statements.
    ("_rules/calls.py", "self._next_word += 1 if self.kind == \"motion\" else -1", "self._next_word += 1"),
    ("_rules/calls.py", "if self.words.setdefault(word, is_given) != is_given:", "if False:"),
    ("_rules/calls.py", "[Number(value.plus), *bounds]", "bounds"),
    ("_rules/calls.py", "if name not in frame.assigned:\n", "if True:\n"),
    ("_rules/calls.py", "if next_word != self._next_word:", "if False:"),
    ("_rules/functions.py", "_counted(motion) & _words_of(change) |", ""),
    ("_rules/functions.py", "r\"^[^;\\n]*\\bdraw", "r\"\\bdraw"),
    ("_rules/statements.py", "frame.constants[target.id] = turn", "frame.constants[target.id] = turn + 1"),
    ("_rules/statements.py", "self.branch(node.value, stay, False)", "self.branch(node.value, stay, True)"),
    ("_rules/statements.py", "            self.emitter.emit(\"jump\", target=frame.end)\n", ""),
    ("_rules/names.py", "if any(value is UNKNOWN for value in values.values()):", "if False:"),
    # Names, and files that are read and not run.
    ("_rules/names.py", "if name in frame.assigned or", "if"),
    ("_rules/names.py", "or name in frame.counters or", "or"),
    ("_rules/names.py", "is getattr(builtins, name)", "in (min, max, abs)"),
    ("_rules/names.py", "plain(self.named(name)) for", "self.named(name) for"),
    ("_rules/names.py", "            bool(value)  # an array has no truth value\n", ""),
    ("_rules/statements.py", " or not self.is_own(\"range\")", ""),
    ("_rules/statements.py", "if turns[MAX_TURNS:]:", "if False:"),
    ("_rules/reading.py", "return _meaning_of(text_code) == _meaning_of(made_code)", "return True"),
    ("_rules/reading.py", "known.update(dict.fromkeys(changed, UNKNOWN))", "pass"),
    ("_rules/reading.py", "[node.name, *_names_set_by(node.args, file)]", "[node.name]"),
    ("_rules/reading.py", "not isinstance(part.ctx, ast.Load)", "isinstance(part.ctx, ast.Store)"),
    ("_rules/reading.py", "for field in (\"name\", \"rest\")", "for field in ()"),
    ("_rules/reading.py", "if \"*\" in names and", "if False and"),
    ("_rules/reading.py", "if len(names) > 1 or", "if"),
    ("_rules/reading.py", "[len(arguments.args) - len(arguments.defaults):]", ""),
    # Forms of variables, and lengths.
    ("_rules/translating.py", "if attempt.forms() > forms_before:", "if False:"),
    ("_rules/expressions.py", "self.attempt.numbers.add(variable.number)", "pass"),
    ("_rules/registers.py", "    _need_short(len(program.lines))\n", ""),
    # Registers.
    ("_rules/emission.py", "set.intersection(*paths)", "set.union(*paths)"),
    ("_rules/emission.py", "self.is_live = name not in ENDS", "self.is_live = True"),
    ("_rules/registers.py", " or item.difference is not None\n", "\n"),
    ("_rules/registers.py", "{item.writes, *item.reads} if item.name == \"copy\" else {item.writes}",
     "{item.writes, *item.reads}"),
    ("_rules/registers.py", "        else:\n            next_labels = set()\n", ""),
    ("_rules/registers.py", " if numbers.get(other) in free]", " if other in numbers]"),
    ("_rules/registers.py", "        living |= living_at.get(item.target, set())\n", ""),
    ("_rules/registers.py", "                conflicts[item.writes].add(other)\n", ""),
]))


def write_copy(mutant: Mutant, folder: Path) -> None:
    """Copy the package and its tests into a folder, and make the edit there."""
    for part in "trlab", "tests":
        shutil.copytree(TOP / part, folder / part, ignore=shutil.ignore_patterns("__pycache__"))
    path = folder / "trlab" / mutant.file
    path.write_text(path.read_text("utf-8").replace(mutant.old, mutant.new, 1), "utf-8")


def forget_modules() -> None:
    """Make Python import the package and its tests again, from the first folder that has them."""
    for name in list(sys.modules):
        if name.split(".")[0] in ("trlab", "tests"):
            del sys.modules[name]


def first_failure_here(names: list[str]) -> str:
    """The first of these tests that fails; empty if all pass."""
    from tests.libraries import hypothesis

    # A failure is enough, without the smallest example of it.
    hypothesis.settings.register_profile("quick", phases=[hypothesis.Phase.generate])
    hypothesis.settings.load_profile("quick")
    with open(os.devnull, "w") as nowhere:
        tests = unittest.defaultTestLoader.loadTestsFromNames([f"tests.{name}" for name in names])
        result = unittest.TextTestRunner(nowhere, failfast=True).run(tests)
    failed = [test for test, _ in result.errors + result.failures]
    return getattr(failed[0], "test_case", failed[0]).id() if failed else ""


def first_failure(mutant: Mutant) -> str:
    """The first test that fails with this edit in a copy of the package; empty if all pass. It changes the modules and
    the folder of its process, which must therefore do nothing else."""
    with tempfile.TemporaryDirectory() as folder:
        write_copy(mutant, Path(folder))
        forget_modules()
        sys.path.insert(0, folder)
        os.chdir(folder)
        return first_failure_here(TESTS[mutant.file])


def without_edits(mutants: list[Mutant]) -> list[Mutant]:
    """An edit that changes nothing for each group of tests that has to notice one of these mutants."""
    file_by_tests = {tuple(TESTS[mutant.file]): mutant.file for mutant in mutants}
    return [Mutant(file, old="", new="") for file in file_by_tests.values()]


def main() -> int:
    words = sys.argv[1:]
    chosen = [mutant for mutant in MUTANTS if not words or any(word in mutant.file for word in words)]
    for mutant in chosen:
        if not mutant.is_possible():
            raise SystemExit(f"{mutant.file} has no {mutant.old!r}: adapt the list of mutants")
    os.environ["TRLAB"] = find_program()
    missed = 0
    # Each edit has its own process, which need not import the libraries again.
    with multiprocessing.get_context("fork").Pool(maxtasksperchild=1) as pool:
        if any(pool.imap(first_failure, without_edits(chosen), chunksize=1)):
            raise SystemExit("the tests fail without any edit")
        for mutant, test in zip(chosen, pool.imap(first_failure, chosen, chunksize=1)):
            missed += not test
            notice = test.removeprefix("tests.") or "NOT NOTICED"
            print(f"{notice}: {mutant.file}: {mutant.old!r} -> {mutant.new!r}", flush=True)
    print(f"{len(chosen) - missed} of {len(chosen)} edits are noticed")
    return 1 if missed else 0


if __name__ == "__main__":
    sys.exit(main())
