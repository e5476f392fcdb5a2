// Looks through PARTS, rows of [page, title, place, heading, text], for all words that are asked.
const MOST = 40, BEFORE = 60, LENGTH = 220;
const asked = document.getElementById("asked");

/** How well a part fits: a word in a heading counts more; 0 if a word isn't there. */
function fit([, title, , heading, text], words) {
  const head = heading.toLowerCase(), body = text.toLowerCase();
  let sum = 0;
  for (const it of words) {
    const times = body.split(it).length - 1;
    if (!times && !head.includes(it)) return 0;
    sum += (head.includes(it) ? 20 : 0) + (title.toLowerCase().includes(it) ? 5 : 0) + Math.min(times, 5);
  }
  return sum;
}

/** An element with texts and elements in it. */
function element(tag, ...inside) {
  const made = document.createElement(tag);
  made.append(...inside);
  return made;
}

/** The words of a part around the first that was asked. */
function around(text, words) {
  const at = Math.max(0, Math.min(...words.map((it) => text.toLowerCase().indexOf(it)).filter((it) => it >= 0)) - BEFORE);
  const from = Number.isFinite(at) ? at : 0;
  return (from ? ".. " : "") + text.slice(from, from + LENGTH) + (from + LENGTH < text.length ? " .." : "");
}

function show() {
  const words = asked.value.toLowerCase().split(/\s+/).filter(Boolean);
  const rows = words.length ? PARTS.map((it) => [fit(it, words), it]).filter(([sum]) => sum).sort(([one], [two]) => two - one) : [];
  document.getElementById("told").textContent = words.length ? `${rows.length} parts of the pages have all words` : "";
  document.getElementById("found").replaceChildren(...rows.slice(0, MOST).map(([, [page, title, place, heading, text]]) => {
    const link = element("a", heading === title ? title : `${title}: ${heading}`);
    link.href = `${page}#${place}`;
    return element("p", link, document.createElement("br"), around(text, words));
  }));
}

asked.addEventListener("input", show);
asked.value = new URLSearchParams(location.search).get("q") ?? "";
show();
