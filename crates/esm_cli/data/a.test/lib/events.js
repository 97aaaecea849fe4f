import "./store.js";
import "./queue.js";
print("events");
