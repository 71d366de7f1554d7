/** A page of one run, with the run in it as data. */

import { element } from "./elements.js";
import { Page } from "./page.js";

const root = element("div");
document.body.append(root);
const page = new Page(root);
page.take(JSON.parse(document.getElementById("data").textContent));
page.start();
page.readAddress();
