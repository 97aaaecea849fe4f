print("before");
await import("./waits.js");
print("after");
