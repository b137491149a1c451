"use strict";
// Shows the page anew every three seconds, but not while it is hidden or some of its text is selected.
async function renew() {
  if (document.hidden || !getSelection().isCollapsed) return;
  const reply = await fetch(location.href, { cache: "no-store", signal: AbortSignal.timeout(10_000) });
  const page = new DOMParser().parseFromString(await reply.text(), "text/html");
  document.querySelector("main").replaceWith(page.querySelector("main"));
  document.title = page.title;
}
async function keep() {
  const said = document.getElementById("said");
  try {
    await renew();
    said.textContent = "";
  } catch {
    said.textContent = "The exporter does not answer; this is what it showed last.";
  }
  document.querySelector("main").classList.toggle("stale", said.textContent !== "");
  setTimeout(keep, 3000);
}
setTimeout(keep, 3000);
