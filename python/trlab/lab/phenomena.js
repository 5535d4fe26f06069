// The examples of the page, each with the name of the phenomenon that it shows and a sentence about it.

/** An example opens a file of the package, or else sets the controls of the page to a `job`. A sweep shows its phenomenon on a road of
 * one `density`. */
const GROUPS = {
  "Traffic": [
    {
      name: "Phantom jams", file: "jams.job",
      words: "Jams form without any obstacle, because drivers brake at random, and they travel backwards.",
    },
    {
      name: "Hysteresis",
      words: "At one density traffic flows freely or stays jammed, and its initial state decides. The diagram shows both branches.",
      job: {
        limit: 5, lanes: 1, length: 1000, cars: 100, density: 0.1, start: "moving", road: null, steps: 5000,
        rules: [{ at: 0, model: "vdr", p: 0.015625, q: 0.75, motion: "", change: "" }],
      },
    },
    {
      name: "A platoon breaks up", file: "platoon.job",
      words: "Twenty cars drive with equal gaps. Each brakes with probability 1/4, and the pattern is lost within a few steps.",
    },
    {
      name: "A jam moves backwards", file: "jam.job",
      words: "Fast cars run into a jam. One car leaves it per step, so that its front moves back by one cell per step.",
    },
    {
      name: "A jam that stays", file: "slow_to_start.job",
      words: "Stopped cars start late, with probability 1/4 per step. The jam lives long, and leaves large gaps ahead of it.",
    },
    {
      name: "The light turns green", file: "queue.job",
      words: "Ten cars wait in a queue and start one after the other, one car per step.",
    },
    {
      name: "Rain for ten steps", file: "weather.job",
      words: "From step 10 to step 20 drivers brake with probability 1/2, and free traffic is disturbed.",
    },
    { name: "Overtaking", file: "overtaking.job", words: "There is a jam on lane 0, and fast cars behind it pass on lane 1." },
    {
      name: "Two cars", file: "two_cars.job",
      words: "Two stopped cars on ten cells: the rear one has to wait for the one ahead.",
    },
  ],
  "Fundamental diagrams": [
    {
      name: "Free and jammed traffic", file: "fundamental_diagram.sweep",
      words: "Flow against density in the Nagel-Schreckenberg model with braking probability 1/4.",
    },
    {
      name: "The exact triangle", file: "triangle.sweep",
      words: "Without random braking every point is on the triangle: free traffic up to 1/6 cars per cell, jammed traffic above it.",
    },
    {
      name: "The capacity drops", file: "slow_to_start.sweep",
      words: "Stopped cars start late. The flow collapses where the first jam forms.",
    },
    {
      name: "Two lanes", file: "two_lanes.sweep",
      words: "Flow per lane on two lanes, with lane changes after Rickert and others (1996).",
    },
    {
      name: "Keep to one lane", file: "lane_rule.sweep", density: 0.06,
      words: "Drivers overtake on lane 1 and return to lane 0, which has twice as many cars in light traffic.",
    },
  ],
  "Rules of one's own": [
    {
      name: "Keep your distance (Python)", file: "keep_distance.py",
      words: "Drivers leave some cells free ahead of them. Move the slider of g to change how many.",
    },
    { name: "Overtake and return (Python)", file: "overtake.py", words: "A rule for lane changes as a Python function." },
    {
      name: "Published rules (Python)", file: "published_rules.py",
      words: "Rules of the literature as Python functions. Choose one below the editor.",
    },
    {
      name: "A queue that keeps its distance", file: "keep_distance.job",
      words: "One cell ahead always stays free, so that only one car leaves the queue every two steps.",
    },
    {
      name: "Drivers who look ahead", file: "anticipating.job",
      words: "They see how fast the next car is, and approach a stopped one in smaller steps.",
    },
    { name: "Nagel and Schreckenberg", file: "nasch.rule", words: "The model as a program, with braking probability 1/2." },
    {
      name: "Slow to start", file: "slow_to_start.rule",
      words: "Stopped cars start late: the model of Barlovic and others (1998) as a program.",
    },
    { name: "Keep your distance", file: "keep_distance.rule", words: "One cell ahead always stays free, and that costs flow." },
    { name: "Look ahead", file: "anticipating.rule", words: "The speed of the next car decides how much of the gap is used." },
    { name: "Change lanes", file: "lane_change.rule", words: "The lane changes after Rickert and others (1996) as a program." },
  ],
};
const ALL = Object.values(GROUPS).flat();
const idOf = ({ file, name }) => file ?? name;

/** Fill the choice of examples: first those with a name, in their groups, then files that have none. */
export function listExamples(select, files) {
  const groups = Object.entries(GROUPS).map(([label, all]) => {
    const group = Object.assign(document.createElement("optgroup"), { label });
    group.append(...all.filter(({ file }) => !file || file in files).map(example => new Option(example.name, idOf(example))));
    return group;
  });
  const others = Object.keys(files).filter(name => !ALL.some(({ file }) => file === name));
  select.append(...groups, ...others.map(name => new Option(name, name)));
}
/** The example with an id, and its sentence below the choice. */
export function describeExample(id, place) {
  const found = ALL.find(example => idOf(example) === id);
  place.replaceChildren(found?.words ?? "");
  if (found?.file) place.append(" ", Object.assign(document.createElement("code"), { textContent: found.file }));
  return found;
}
