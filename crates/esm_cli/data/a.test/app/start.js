import "../lib/log.js";
import "../lib/store.js";
import "./routes.js";
print("start");
