import "./events.js";
import "./log.js";
print("store");
