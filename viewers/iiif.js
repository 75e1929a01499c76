// startIiif({ bases }) resolves once tiff-worker.js, which stands beside this file, controls the page, at the first visit too: await it
// before a viewer's first request. Where that can't be it fails with an Error that says in words what is wrong. `bases` are the addresses of
// servers that answer TIFF, as https://HOST/iiif; with none the worker takes all image requests. It controls this page, and no other one.
"use strict";
const WORKER = new URL("tiff-worker.js", document.currentScript.src);

async function startIiif({ bases = [], seconds = 20 } = {}) {
  if (!isSecureContext) throw new Error("a service worker needs https, or localhost: this page came without");
  const workers = navigator.serviceWorker, url = new URL(WORKER);
  if (!workers) throw new Error("this browser has no service workers here (a private window, or they are switched off)");
  bases.forEach((base) => url.searchParams.append("base", base));
  const registration = await workers.register(url, { scope: location.pathname }).catch((error) => {
    throw new Error(`the browser refuses the service worker ${url}: ${error.message}`);
  });
  for (const end = Date.now() + 1000 * seconds; workers.controller?.scriptURL !== url.href; ) {
    if (Date.now() > end) throw new Error(`the service worker ${url} doesn't start`);
    // A worker of another list, which this one follows, isn't asked: it would be kept from ending.
    if (registration.active?.scriptURL === url.href) registration.active.postMessage("claim");
    await new Promise((resolve) => setTimeout(resolve, 20));
  }
}
