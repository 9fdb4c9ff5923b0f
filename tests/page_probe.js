"use strict";
// Looks at the page as a reader does: opens each example that is named, and posts what is shown of it, and after a
// click on the repair, to whoever served the page.

const NAMES = []; // (the test writes the names here)

const pause = () => new Promise((done) => setTimeout(done, 20));

// What is shown beside the trace: its lines, without blanks around them.
function seen() {
  return document.getElementById("right").innerText.split("\n").map((line) => line.trim());
}

// The example that is marked in the list, if it is in sight there.
function listed() {
  const row = document.querySelector("#list [aria-current]");
  const [mine, all] = [row, document.getElementById("list")].map((each) => each.getBoundingClientRect());
  return mine.top >= all.top - 1 && mine.bottom <= all.bottom + 1 ? row.textContent : null;
}

async function probe() {
  const found = [];
  for (const name of NAMES) {
    location.hash = encodeURIComponent(name);
    while (document.body.dataset.judged !== name) await pause();
    const one = { name, seen: seen(), listed: listed(), mended: null, picture: null };
    if (!document.getElementById("drawn").hidden) {
      const image = document.getElementById("picture");
      await image.decode();
      one.picture = decodeURIComponent(image.src.slice(image.src.indexOf(",") + 1));
    }
    if (!document.getElementById("mend").hidden) {
      document.getElementById("apply").click();
      one.mended = seen();
    }
    one.marked = [...document.querySelectorAll("#numbers .here")].map((row) => row.textContent);
    one.fits = document.documentElement.scrollWidth <= window.innerWidth;
    found.push(one);
  }
  await fetch("/", { method: "POST", body: JSON.stringify(found) });
}

probe().catch((error) => fetch("/", { method: "POST", body: JSON.stringify(String(error)) }));
