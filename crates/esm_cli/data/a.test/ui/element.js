import "../lib/events.js";
print("element");
