// Each model in two sentences, and the paper that it comes from.

const MODELS = {
  nasch: {
    words: "Each car speeds up by one up to the maximum speed, slows down to the gap ahead, and then brakes by one with its braking " +
      "probability. This random braking is enough to make jams without an obstacle.",
    paper: "Nagel and Schreckenberg, J. Physique I 2 (1992) 2221", link: "https://doi.org/10.1051/jp1:1992277",
  },
  vdr: {
    words: "As in the model of Nagel and Schreckenberg, but stopped cars brake with a probability of their own, so that they start " +
      "late. Wide jams then live long, and at the same density traffic can flow freely, depending on its initial state.",
    paper: "Barlovic, Santen, Schadschneider and Schreckenberg, Eur. Phys. J. B 5 (1998) 793", link: "https://doi.org/10.1007/s100510050504",
  },
  rickert: {
    words: "A car that is held up changes lanes with a probability, if the other lane has room ahead and nobody is close behind. " +
      "Then each lane follows the model of Nagel and Schreckenberg.",
    paper: "after Rickert, Nagel, Schreckenberg and Latour, Physica A 231 (1996) 534", link: "https://doi.org/10.1016/0378-4371(95)00442-4",
  },
  own: {
    words: "A short program, which you can also write as a Python function, decides the speed of each car from what its driver sees. " +
      "The verifier accepts it only if it can never cause a collision.",
    paper: "The editors are below", link: "#pythonlabel",
  },
};

/** Describe a model below the list from which it is chosen. The place is not marked with `data-model`, because such parts are hidden
 * when another model is chosen. */
export function describeModel(name, place) {
  if (place.dataset.about === name) return;
  const { words, paper, link } = MODELS[name], anchor = document.createElement("a");
  Object.assign(anchor, { href: link, textContent: paper });
  if (!link.startsWith("#")) Object.assign(anchor, { target: "_blank", rel: "noopener noreferrer" });
  place.dataset.about = name;
  place.replaceChildren(`${words} `, anchor, ".");
}
