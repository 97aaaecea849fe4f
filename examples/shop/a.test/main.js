import { start } from "./app/start.js";
import * as pages from "./app/routes.js";
import "./legacy/offers.js";

start();
print(pages.home);
print(pages.cart);
print(pages.search);
print(pages.account);
